-- The plan of a rebalance: the largest group whose size is below the difference moves from the fullest node to the emptiest, again and again. By
-- the number of shards each group counts 1; by disk size a row counts 1 for each column, 8 for each number, and the bytes of its texts.
SELECT get_rebalance_table_shards_plan(); -- 1: no groups
CREATE TABLE t (k bigint, v bigint, PRIMARY KEY (k)); -- 2
SELECT create_distributed_table('t', 'k', shard_count => 4); -- 3
CREATE TABLE r (id bigint PRIMARY KEY); -- 4
SELECT create_reference_table('r'); -- 5
INSERT INTO r VALUES (1), (2), (3); -- 6: a reference table doesn't count
SELECT get_rebalance_table_shards_plan(); -- 7: two groups on each node
SELECT citus_move_shard_placement(102009, 2, 1); -- 8
SELECT citus_move_shard_placement(102011, 2, 1); -- 9
SELECT get_rebalance_table_shards_plan(rebalance_strategy => 'by_disk_size'); -- 10: no rows
INSERT INTO t VALUES (1, 10), (2, 20), (3, 30), (4, 40); -- 11
SELECT get_rebalance_table_shards_plan(); -- 12
SELECT get_rebalance_table_shards_plan(rebalance_strategy => 'by_shard_count'); -- 13
SELECT get_rebalance_table_shards_plan(rebalance_strategy => 'by_disk_size'); -- 14: 18 in each group

-- Groups 0 to 3 have 18, 10, 54 and 18.
UPDATE t SET v = NULL WHERE k = 3; -- 15
INSERT INTO t VALUES (5, 50), (10, 100); -- 16
SELECT get_rebalance_table_shards_plan(rebalance_strategy => 'by_disk_size'); -- 17

-- Group 0 has a row of 50 more, of a co-located table.
CREATE TABLE n (k bigint PRIMARY KEY, s text); -- 18
SELECT create_distributed_table('n', 'k', colocate_with => 't'); -- 19
INSERT INTO n VALUES (1, '0123456789012345678901234567890123456789'); -- 20
SELECT get_rebalance_table_shards_plan(rebalance_strategy => 'by_disk_size'); -- 21

-- Nothing was moved.
SELECT get_rebalance_table_shards_plan(); -- 22
SELECT count(*) FROM t; -- 23
