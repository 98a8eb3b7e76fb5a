-- An UPDATE may not set the distribution column, and each row of an INSERT has a value for it.
CREATE TABLE t (k bigint PRIMARY KEY, v bigint);
SELECT create_distributed_table('t', 'k', shard_count => 4);
INSERT INTO t VALUES (1, 10), (2, 20);
UPDATE t SET k = 9 WHERE k = 1;
UPDATE t SET v = 1, k = k;
INSERT INTO t VALUES (3, 30), (NULL, 40);
INSERT INTO t (v) VALUES (50);
INSERT INTO t VALUES (1, 10), (3, 30), (NULL, 1), (NULL, 2);
UPDATE t SET k = 9 WHERE k = 1 AND k = 2;
SELECT * FROM t WHERE k = 1;
SELECT * FROM t WHERE k = 3;
