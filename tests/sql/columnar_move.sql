-- A group in chunks moves to another node with its rows.
CREATE TABLE t (k bigint, v bigint, PRIMARY KEY (k));
SELECT create_distributed_table('t', 'k', shard_count => 4);
INSERT INTO t VALUES (1,10),(2,20),(3,30),(4,40);
SELECT citus_move_shard_placement(102008, 1, 2);
SELECT citus_move_shard_placement(102008, 1, 2);
SELECT citus_move_shard_placement(102008, 2, 2);
SELECT citus_move_shard_placement(7, 1, 2);
SELECT citus_move_shard_placement(102008, 1, 3);
SELECT * FROM t WHERE k = 1;
