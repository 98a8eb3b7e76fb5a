-- Tokens: names, numbers, texts, signs and comments.
CREATE TABLE Tab (A_1$ bigint, _x text, PRIMARY KEY (a_1$, _X));
SELECT create_distributed_table('tab', 'a_1$');
INSERT INTO tAB VALUES (007, 'it''s');
INSERT INTO tab VALUES (007, '');
INSERT INTO tab VALUES (7, '-- ; é');
INSERT INTO tab VALUES (9223372036854775807, '|\');
INSERT INTO tab VALUES (-9223372036854775807 - 1, 'two
lines');
SELECT a_1$ AS a, _x FROM tab WHERE a_1$ = 7 ORDER BY _x;
SELECT _x FROM tab -- 'nothing'; (
WHERE a_1$ = 9223372036854775807--;
;
SELECT _x	FROM
tab WHERE 7 -6- -1 = 2 AND a_1$ = 7 AND _x != 'it''s' AND _x <> '';
SELECT 12ab FROM tab;
SELECT 12 ab FROM tab;
SELECT '' '' FROM tab;
SELECT a_1$ FROM tab WHERE a_1$ = 7 AND 1 < = 2;
SELECT a_1$ FROM tab WHERE a_1$ = 7 AND 1 =>2;
SELECT count(*) FROM tab WHERE a_1$ = 7 AND 1<2 AND 1<=2 AND 2>1 AND 2>=1 AND 1!=2 AND 1<>2 AND 7%4=3 AND 7/2*2+1=7;
