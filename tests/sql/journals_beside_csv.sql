-- Journals are written as ever under --csv.
CREATE TABLE t (k bigint, v bigint);
SELECT create_distributed_table('t', 'k', shard_count => 2);
INSERT INTO t VALUES (1, NULL);
SELECT * FROM t;
