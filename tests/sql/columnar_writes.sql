-- A DELETE takes the last rows out of two chunks, which go with them; an UPDATE rewrites the others.
CREATE TABLE t (k bigint, v bigint, PRIMARY KEY (k));
SELECT create_distributed_table('t', 'k', shard_count => 4);
INSERT INTO t VALUES (1,10),(2,20),(3,30),(4,40);
DELETE FROM t WHERE k IN (1, 3);
UPDATE t SET v = v + 1;
SELECT * FROM t ORDER BY k;
