-- Under --repartition joins that need their rows moved run from the start; the setting can be taken back.
CREATE TABLE t (k bigint, v bigint, PRIMARY KEY (k));
SELECT create_distributed_table('t', 'k', shard_count => 4);
CREATE TABLE u (k bigint, w bigint, PRIMARY KEY (k));
SELECT create_distributed_table('u', 'k', colocate_with => 't');
INSERT INTO t VALUES (1, 10), (2, 20), (3, 30), (4, 40);
INSERT INTO u VALUES (1, 20), (2, NULL), (3, 20);
SELECT t.k, u.k AS uk FROM t JOIN u ON t.v = u.w ORDER BY 1, 2;
EXPLAIN SELECT t.k, u.k AS uk FROM t JOIN u ON t.v = u.w ORDER BY 1, 2;
SELECT t.k FROM t, u;
SET citus.enable_repartition_joins TO off;
SELECT t.k, u.k AS uk FROM t JOIN u ON t.v = u.w ORDER BY 1, 2;
