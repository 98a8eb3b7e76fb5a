-- COPY in the text format: what its rows and fields stand for.

CREATE TABLE t (k bigint, i integer, s text, PRIMARY KEY (k));
SELECT create_distributed_table('t', 'k', shard_count => 4);

-- Fields are parted by tabs. A number may have a sign, zeros and spaces around it; a text is the whole field, and may be empty.
COPY t FROM STDIN;
1	10	one
2	-20	two words, "quotes" and 'quotes'; -- no comment
 3 	+30	  three  
4	0000000000000000000000007	
5	-0	ä€😀
\.
SELECT * FROM t WHERE k <= 5 ORDER BY k;

-- \N alone in a field is NULL. With more beside it, it is an N.
COPY t FROM STDIN;
6	\N	\N
7	1	\NN
8	2	N\N
9	3	NULL
\.
SELECT k, i, s FROM t WHERE k BETWEEN 6 AND 9 ORDER BY k;

-- A backslash with b, f, n, r, t or v stands for a control character, with another for that one.
COPY t FROM STDIN;
10	1	tab\tnewline\nbackslash\\bar\|
11	2	[\b\f\r\v]
12	3	\.\q\ \"\ä
\ 13\ 	4	x
14	\-5	\\N
\.
SELECT k, i, s FROM t WHERE k BETWEEN 10 AND 14 ORDER BY k;

-- The least and the greatest numbers of each type.
COPY t FROM STDIN (FORMAT TEXT);
-9223372036854775808	-2147483648	least
9223372036854775807	2147483647	greatest
\.
SELECT * FROM t WHERE s = 'least' OR s = 'greatest' ORDER BY k;

-- Columns may be listed, in any order. The others are NULL.
COPY t (s, k) FROM STDIN WITH (FORMAT TEXT);
twenty	20
\.
COPY t (k) FROM STDIN;
21
\.
SELECT * FROM t WHERE k IN (20, 21) ORDER BY k;

-- No rows.
COPY t FROM STDIN;
\.
COPY t (s) FROM STDIN;
\.

-- Of a table with one column each line is a row: an empty one is the empty text. Only the line \. ends the data.
CREATE TABLE w (s text PRIMARY KEY);
SELECT create_distributed_table('w', 's', shard_count => 4);
COPY w FROM STDIN;
a

\\.
\.x
 \.
\n
;
\.
SELECT s FROM w ORDER BY s;

-- A row of a reference table goes to each node, and is there once.
CREATE TABLE r (id bigint PRIMARY KEY, name text);
SELECT create_reference_table('r');
COPY r FROM STDIN;
1	north
2	\N
\.
COPY r FROM STDIN;
\.
SELECT * FROM r ORDER BY id;

-- Rows are where an INSERT would have them: by the key they are found, and joined with rows that were inserted.
INSERT INTO t VALUES (30, 300, 'thirty');
UPDATE t SET i = i + 1 WHERE k IN (1, 30);
SELECT t.k, t.i, r.name FROM t LEFT JOIN r ON t.k = r.id WHERE t.k IN (1, 2, 30) ORDER BY t.k;
DELETE FROM t WHERE k = 1;
COPY t FROM STDIN;
1	1	again
\.
SELECT * FROM t WHERE k = 1;
