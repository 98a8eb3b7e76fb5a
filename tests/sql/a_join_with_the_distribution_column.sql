-- A join of any column with the other table's distribution column takes one step: the rows that are joined so far are split by that table's
-- ranges, and the table stays as it is.
CREATE TABLE t (k bigint, v bigint, PRIMARY KEY (k));
SELECT create_distributed_table('t', 'k', shard_count => 4);
INSERT INTO t VALUES (1, 10), (2, 20), (3, 30), (4, 40);
CREATE TABLE u (k bigint, w bigint, PRIMARY KEY (k));
SELECT create_distributed_table('u', 'k', colocate_with => 't');
INSERT INTO u VALUES (1, 20), (2, NULL), (3, 20);
INSERT INTO u VALUES (4, 2);
SELECT u.k, t.v FROM u JOIN t ON u.w = t.k; -- U1
SET citus.enable_repartition_joins TO on;
SELECT u.k, t.v FROM u JOIN t ON u.w = t.k;
EXPLAIN SELECT u.k, t.v FROM u JOIN t ON u.w = t.k;
