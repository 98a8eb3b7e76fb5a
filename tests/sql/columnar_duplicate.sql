-- A key that is there keeps both rows out of the chunks. Key 5 lies in group 2.
CREATE TABLE t (k bigint, v bigint, PRIMARY KEY (k));
SELECT create_distributed_table('t', 'k', shard_count => 4);
INSERT INTO t VALUES (1,10),(2,20),(3,30),(4,40);
INSERT INTO t VALUES (5,50),(1,99);
SELECT count(*) FROM t WHERE k = 5;
SELECT * FROM t WHERE k = 1;
