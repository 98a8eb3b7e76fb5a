-- A row in a chunk by columns is read back.
CREATE TABLE t (k bigint, v bigint, PRIMARY KEY (k));
SELECT create_distributed_table('t', 'k', shard_count => 4);
INSERT INTO t VALUES (1,10);
SELECT * FROM t WHERE k = 1;
