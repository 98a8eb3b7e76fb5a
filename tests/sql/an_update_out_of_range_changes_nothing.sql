-- An UPDATE that would store a number outside its column's type changes no row of any shard.
CREATE TABLE t (k bigint, v bigint, n integer, PRIMARY KEY (k));
SELECT create_distributed_table('t', 'k', shard_count => 4);
INSERT INTO t VALUES (1, 10, 1), (2, 20, 2147483647), (3, 30, 3), (4, 9223372036854775807, 4);
UPDATE t SET v = 9223372036854775807 + v WHERE k = 1;
UPDATE t SET n = n + 1;
UPDATE t SET v = v + 1;
SELECT * FROM t WHERE k = 1;
SELECT * FROM t WHERE k = 2;
SELECT * FROM t WHERE k = 4;
UPDATE t SET n = n + 1 WHERE n < 4;
UPDATE t SET n = -n - 1 WHERE k = 2;
UPDATE t SET v = v - 1 WHERE k = 4;
SELECT * FROM t WHERE k = 1;
SELECT * FROM t WHERE k = 2;
SELECT * FROM t WHERE k = 4;
