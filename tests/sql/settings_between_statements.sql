-- Settings stay in force until they are set again. What is refused sets nothing.

SET citus.shard_count TO 4;
SET citus.enable_repartition_joins TO ON;
SET citus.max_adaptive_executor_pool_size = 64;
SET citus.shard_count TO 129;
CREATE TABLE t (k bigint);
SELECT create_distributed_table('t', 'k');
SET citus.enable_repartition_joins = OFF;
DELETE FROM t;
DELETE FROM;
