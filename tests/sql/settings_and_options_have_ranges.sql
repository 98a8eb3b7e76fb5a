-- Settings take their own values, within their ranges.

SET citus.shard_count TO 129;
SET citus.shard_count = 0;
SET citus.max_adaptive_executor_pool_size TO 65;
SET citus.shards TO 3;
SET session.shard_count TO 3;
SET citus.shard_count TO OFF;
SET citus.enable_repartition_joins TO 1;
SET Citus.Shard_Count = 128;
SELECT citus_move_shard_placement(1, 1, 4294967296);
SELECT rebalance_table_shards(rebalance_strategy => 'by_moon');
