-- Joins of distributed tables on other columns than those that they are distributed by: they are refused unless repartition joins are on.
CREATE TABLE t (k bigint PRIMARY KEY, v bigint);
CREATE TABLE u (k bigint PRIMARY KEY, w bigint);
CREATE TABLE far (k bigint PRIMARY KEY, v bigint);
SELECT create_distributed_table('t', 'k', shard_count => 4);
SELECT create_distributed_table('u', 'k', colocate_with => 't');
SELECT create_distributed_table('far', 'k', shard_count => 3, colocate_with => 'none');
INSERT INTO t VALUES (1, 10), (2, 20), (3, 30), (4, 20), (5, NULL);
INSERT INTO u VALUES (1, 20), (2, 40), (3, 20), (6, 5), (7, NULL);
INSERT INTO far VALUES (10, 1), (20, 2), (30, 5), (2, 20);
SELECT t.k, u.k AS uk FROM t JOIN u ON t.v = u.w ORDER BY 1, 2; -- U1
SELECT t.k, far.v FROM t JOIN far ON t.v = far.k ORDER BY 1; -- U1: one side by its distribution column
SELECT t.k, far.k AS fk FROM t JOIN far ON t.k = far.k ORDER BY 1; -- U1: another count of shards
SELECT t.k, u.k AS uk FROM t CROSS JOIN u; -- U2
SELECT t.k, u.k AS uk FROM t JOIN u ON t.v < u.w; -- U2
SELECT t.k, u.k AS uk FROM t LEFT JOIN u ON t.v = u.w; -- U3
SELECT s.n FROM (SELECT t.v AS n FROM t JOIN u ON t.v = u.w) s; -- U1 in a block below
SELECT k FROM t WHERE v IN (SELECT t.v FROM t CROSS JOIN u); -- U2 in a block below
SET citus.enable_repartition_joins TO on;
SELECT t.k, u.k AS uk FROM t JOIN u ON t.v = u.w ORDER BY 1, 2;
SELECT t.k, far.v FROM t JOIN far ON t.v = far.k ORDER BY 1;
SELECT t.k, far.k AS fk FROM t JOIN far ON t.k = far.k ORDER BY 1;
SELECT t.k, u.k AS uk, far.v FROM t JOIN u ON t.v = u.w JOIN far ON far.k = t.v ORDER BY 1, 2;
SELECT a.k, b.k AS bk FROM t a JOIN t b ON a.v = b.v ORDER BY 1, 2;
SELECT s.n FROM (SELECT t.v AS n FROM t JOIN u ON t.v = u.w) s ORDER BY s.n;
SELECT t.k, u.k AS uk FROM t CROSS JOIN u; -- U2
SELECT t.k, u.k AS uk FROM t LEFT JOIN u ON t.v = u.w; -- U3
SELECT t.k, u.k AS uk, far.k AS fk FROM t LEFT JOIN u ON t.k = u.k JOIN far ON far.k = t.v ORDER BY 1;
-- a query of one shard is never refused
SET citus.enable_repartition_joins TO off;
SELECT t.k, u.k AS uk FROM t, u WHERE t.k = 1 AND u.k = 1;
SELECT t.k, u.w FROM t LEFT JOIN u ON u.w > t.v WHERE t.k = 1 AND u.k = 1;
