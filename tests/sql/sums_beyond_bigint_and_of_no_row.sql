-- A number that fits no bigint is exact. Over no row a count is 0, and a sum is NULL.

CREATE TABLE t (k bigint, v bigint, PRIMARY KEY (k));
SELECT create_distributed_table('t', 'k', shard_count => 4);
INSERT INTO t VALUES (1,10);
SELECT 9223372036854775807 + 1 AS x FROM t WHERE k = 1;
SELECT count(*), sum(v) FROM t WHERE k = 1 AND v > 10;
