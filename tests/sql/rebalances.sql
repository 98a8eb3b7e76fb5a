-- A rebalance makes the moves of its plan, one after the other, and is answered a row for each.
SELECT rebalance_table_shards(); -- 1: no groups
CREATE TABLE t (k bigint, v bigint, PRIMARY KEY (k)); -- 2
SELECT create_distributed_table('t', 'k', shard_count => 4); -- 3
CREATE TABLE r (id bigint PRIMARY KEY); -- 4
SELECT create_reference_table('r'); -- 5
SELECT rebalance_table_shards(); -- 6: two groups on each node
SELECT citus_move_shard_placement(102009, 2, 1); -- 7
SELECT citus_move_shard_placement(102011, 2, 1); -- 8
INSERT INTO t VALUES (1, 10), (2, 20), (3, 30), (4, 40); -- 9
SELECT rebalance_table_shards(); -- 10
SELECT * FROM t ORDER BY k; -- 11
SELECT rebalance_table_shards(rebalance_strategy => 'by_shard_count'); -- 12: even now

-- All on node 1 again, where group 2 is the largest: 54, the others have 18.
SELECT citus_move_shard_placement(102008, 2, 1); -- 13
SELECT citus_move_shard_placement(102009, 2, 1); -- 14
INSERT INTO t VALUES (5, 50), (10, 100); -- 15
SELECT get_rebalance_table_shards_plan(rebalance_strategy => 'by_disk_size'); -- 16
SELECT rebalance_table_shards(rebalance_strategy => 'by_disk_size'); -- 17
SELECT rebalance_table_shards(rebalance_strategy => 'by_disk_size'); -- 18
SELECT rebalance_table_shards(); -- 19: by their number they aren't even
UPDATE t SET v = v + 1; -- 20
SELECT count(*), sum(v) FROM t; -- 21
