-- An UPDATE goes to the shards that its WHERE leaves, and counts the rows that it changes.
CREATE TABLE t (k bigint, v bigint, n integer, note text, PRIMARY KEY (k));
SELECT create_distributed_table('t', 'k', shard_count => 4);
INSERT INTO t VALUES (1, 10, 1, 'a'), (2, 20, 2, NULL), (3, NULL, 3, 'c'), (4, 40, NULL, 'd');
UPDATE t SET v = v + 1;
SELECT k, v FROM t WHERE k = 1;
SELECT k, v FROM t WHERE k = 2;
SELECT k, v FROM t WHERE k = 3;
SELECT k, v FROM t WHERE k = 4;
UPDATE t SET v = 0, note = 'z' WHERE k = 3;
UPDATE t SET n = n * 2 WHERE k IN (1, 4);
UPDATE t SET n = 7 WHERE v > 20;
UPDATE t SET note = note WHERE k = 1 AND k = 2;
UPDATE t SET note = 'no' WHERE k = NULL;
UPDATE t SET note = 'or' WHERE k = 1 OR v = 21;
-- Values are those of the row before.
UPDATE t SET v = n, n = v WHERE k = 2;
SELECT * FROM t WHERE k = 1;
SELECT * FROM t WHERE k = 2;
SELECT * FROM t WHERE k = 3;
SELECT * FROM t WHERE k = 4;
