-- Sessions of a block move groups of their own, and are refused for the causes of their own: there is no such shard, no such node, it is there already, or it isn't there.
CREATE TABLE t (k bigint PRIMARY KEY, v bigint);
SELECT create_distributed_table('t', 'k', shard_count => 4);
INSERT INTO t VALUES (1, 10), (2, 20), (3, 30), (4, 40), (5, 50), (6, 60);
\parallel
\session 1
SELECT citus_move_shard_placement(102008, 1, 2);
SELECT citus_move_shard_placement(102008, 2, 1);
SELECT citus_move_shard_placement(102008, 2, 1);
\session 2
SELECT citus_move_shard_placement(102009, 2, 3);
SELECT citus_move_shard_placement(102009, 1, 2);
SELECT citus_move_shard_placement(102009, 2, 2);
SELECT citus_move_shard_placement(1, 1, 2);
\session 4
SELECT citus_move_shard_placement(102010, 1, 2);
SELECT v FROM t WHERE k = 2;
\end
SELECT k, v FROM t ORDER BY k;
