-- A key that is taken, a key without a row, what isn't built, and what is no statement: the script goes on after
-- each.

CREATE TABLE t (k bigint, v bigint, PRIMARY KEY (k));
SELECT create_distributed_table('t', 'k', shard_count => 4);
INSERT INTO t VALUES (1,10);
INSERT INTO t VALUES (1,10);
SELECT * FROM t WHERE k = 5;
EXPLAIN SELECT * FROM t WHERE k = 5;
DROP TABLE t;
SELECT * FROM t WHERE k = 5
