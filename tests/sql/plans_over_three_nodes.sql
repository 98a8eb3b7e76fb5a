-- Of nodes with one load the lowest is taken, and so of groups with one size.
CREATE TABLE t (k bigint PRIMARY KEY);
SELECT create_distributed_table('t', 'k', shard_count => 5);
SELECT get_rebalance_table_shards_plan();
SELECT citus_move_shard_placement(102010, 3, 1);
SELECT get_rebalance_table_shards_plan();
SELECT citus_move_shard_placement(102009, 2, 1);
SELECT citus_move_shard_placement(102012, 2, 1);
SELECT get_rebalance_table_shards_plan();
