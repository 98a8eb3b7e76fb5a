-- Four sessions side by side, each of which writes two shard groups and shares both with another one. What a session reads are its own rows, and
-- what is left are the rows of all, whatever the order in which the groups were written.
CREATE TABLE e (k bigint, s integer, v bigint);
SELECT create_distributed_table('e', 'k', shard_count => 4);
\parallel
\session 1
INSERT INTO e VALUES (1, 1, 1), (3, 1, 2);
INSERT INTO e VALUES (1, 1, 3), (3, 1, 4);
INSERT INTO e VALUES (3, 1, 5), (1, 1, 6);
UPDATE e SET v = v * 10 WHERE k IN (1, 3) AND s = 1 AND v > 2;
DELETE FROM e WHERE k IN (1, 3) AND s = 1 AND v = 30;
SELECT count(*), sum(v) FROM e WHERE k IN (1, 3) AND s = 1;
\session 2
INSERT INTO e VALUES (3, 2, 1), (2, 2, 2);
INSERT INTO e VALUES (3, 2, 3), (2, 2, 4);
INSERT INTO e VALUES (2, 2, 5), (3, 2, 6);
UPDATE e SET v = v * 10 WHERE k IN (3, 2) AND s = 2 AND v > 2;
DELETE FROM e WHERE k IN (3, 2) AND s = 2 AND v = 30;
SELECT count(*), sum(v) FROM e WHERE k IN (3, 2) AND s = 2;
\session 3
INSERT INTO e VALUES (2, 3, 1), (4, 3, 2);
INSERT INTO e VALUES (2, 3, 3), (4, 3, 4);
INSERT INTO e VALUES (4, 3, 5), (2, 3, 6);
UPDATE e SET v = v * 10 WHERE k IN (2, 4) AND s = 3 AND v > 2;
DELETE FROM e WHERE k IN (2, 4) AND s = 3 AND v = 30;
SELECT count(*), sum(v) FROM e WHERE k IN (2, 4) AND s = 3;
\session 4
INSERT INTO e VALUES (4, 4, 1), (1, 4, 2);
INSERT INTO e VALUES (4, 4, 3), (1, 4, 4);
INSERT INTO e VALUES (1, 4, 5), (4, 4, 6);
UPDATE e SET v = v * 10 WHERE k IN (4, 1) AND s = 4 AND v > 2;
DELETE FROM e WHERE k IN (4, 1) AND s = 4 AND v = 30;
SELECT count(*), sum(v) FROM e WHERE k IN (4, 1) AND s = 4;
\end
SELECT k, count(*), sum(v) FROM e GROUP BY k ORDER BY k;
