-- An argument's name that a call doesn't know is refused where it stands. Arguments are judged from left to right, and a name that the call knows
-- takes one value of its form. A call that is refused does nothing.

CREATE TABLE t (k bigint PRIMARY KEY, v bigint); -- 1
CREATE TABLE r (id bigint PRIMARY KEY, name text); -- 2

-- create_distributed_table knows shard_count and colocate_with.
SELECT create_distributed_table('t', 'k', foo => 3); -- 3
SELECT create_distributed_table('t', 'k', foo => 'none', shard_count => 4); -- 4
SELECT create_distributed_table('t', 'k', shard_count => 4, foo => 3, bar => 3, colocate_with => 'none'); -- 5
SELECT create_distributed_table('t', 'k', shard_count => 4, colocate_with => 'none', shards => 4); -- 6
SELECT create_distributed_table('t', 'k', foo => 3, foo => 'a'); -- 7: twice, the first
SELECT create_distributed_table('t', 'k', rebalance_strategy => 'by_disk_size'); -- 8: a name of another call
SELECT create_distributed_table('t', 'k', foo => 3, shard_count => 4294967296); -- 9
SELECT create_distributed_table('t', 'k', shard_count => 4294967296, foo => 3); -- 10: the number comes first
SELECT create_distributed_table('t', 'k', shard_count => 4, shard_count => 4); -- 11: a known name twice is no call
SELECT create_distributed_table('t', 'k', foo => 3, colocate_with => 4); -- 12: nor is one with a value of another form
SELECT create_distributed_table('t', k => 'k'); -- 13: nor one with a name in a place's stead
SELECT create_distributed_table('nope', 'k', foo => 3); -- 14: names are judged before tables

-- create_reference_table knows no name.
SELECT create_reference_table('r', foo => 3); -- 15
SELECT create_reference_table('r', foo => 'a', bar => 3); -- 16
SELECT create_reference_table('r', foo => 3, foo => 3); -- 17
SELECT create_reference_table('r', shard_count => 4); -- 18
SELECT create_reference_table('r', colocate_with => 'none', colocate_with => 'none'); -- 19
SELECT create_reference_table('nope', foo => 3); -- 20
SELECT create_reference_table(foo => 'r'); -- 21

-- The tables are local ones still.
SELECT k FROM t; -- 22
SELECT id FROM r; -- 23
SELECT create_distributed_table('t', 'k', shard_count => 4); -- 24: shards 102008 to 102011
SELECT create_reference_table('r'); -- 25
INSERT INTO t VALUES (1, 10); -- 26: shard 102008, on node 1

-- citus_move_shard_placement knows no name. Its numbers go by place, so they come first.
SELECT citus_move_shard_placement(102008, 1, 2, shard_transfer_mode => 'force_logical'); -- 27
SELECT citus_move_shard_placement(102008, 1, 2, foo => 3, bar => 'a'); -- 28
SELECT citus_move_shard_placement(102008, 1, 2, foo => 3, foo => 4); -- 29
SELECT citus_move_shard_placement(102008, 1, 2, shard_count => 4, rebalance_strategy => 'by_disk_size'); -- 30
SELECT citus_move_shard_placement(102008, 4294967296, 2, foo => 3); -- 31
SELECT citus_move_shard_placement(102008, 1, 4294967296, foo => 3); -- 32
SELECT citus_move_shard_placement(7, 9, 9, foo => 3); -- 33: names are judged before shards and nodes
SELECT citus_move_shard_placement(102008, 1, target => 2); -- 34
EXPLAIN SELECT k FROM t WHERE k = 1; -- 35: the shard hasn't moved

-- The calls of rebalances know rebalance_strategy.
SELECT get_rebalance_table_shards_plan(foo => 3); -- 36
SELECT get_rebalance_table_shards_plan(foo => 'by_disk_size', rebalance_strategy => 'by_disk_size'); -- 37
SELECT get_rebalance_table_shards_plan(rebalance_strategy => 'by_disk_size', foo => 3); -- 38
SELECT get_rebalance_table_shards_plan(rebalance_strategy => 'by_moon', foo => 3); -- 39: the strategy comes first
SELECT get_rebalance_table_shards_plan(foo => 3, rebalance_strategy => 'by_moon'); -- 40
SELECT get_rebalance_table_shards_plan(foo => 3, foo => 3); -- 41
SELECT get_rebalance_table_shards_plan(colocate_with => 't'); -- 42
SELECT get_rebalance_table_shards_plan(rebalance_strategy => 'by_disk_size', rebalance_strategy => 'by_disk_size'); -- 43
SELECT rebalance_table_shards(foo => 3); -- 44
SELECT rebalance_table_shards(foo => 'by_disk_size', rebalance_strategy => 'by_disk_size'); -- 45
SELECT rebalance_table_shards(rebalance_strategy => 'by_disk_size', foo => 3); -- 46
SELECT rebalance_table_shards(rebalance_strategy => 'by_moon', foo => 3); -- 47
SELECT rebalance_table_shards(foo => 3, rebalance_strategy => 'by_moon'); -- 48
SELECT rebalance_table_shards(foo => 3, foo => 3); -- 49
SELECT rebalance_table_shards(shard_count => 4); -- 50
SELECT rebalance_table_shards(rebalance_strategy => 'by_disk_size', rebalance_strategy => 'by_disk_size'); -- 51
