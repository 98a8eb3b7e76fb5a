-- A query has one entry in the journal of each group that it touches, however often it names the group's tables.
CREATE TABLE t (k bigint, v bigint, PRIMARY KEY (k)); -- 1
SELECT create_distributed_table('t', 'k', shard_count => 4); -- 2
CREATE TABLE u (k bigint, w bigint, PRIMARY KEY (k)); -- 3
SELECT create_distributed_table('u', 'k', colocate_with => 't'); -- 4
INSERT INTO t VALUES (1, 10), (2, 20), (3, 30), (4, 40); -- 5
INSERT INTO u VALUES (1, 20), (2, NULL), (3, 20); -- 6

-- Groups that no row of which WHERE could keep aren't touched: key 1 is of group 0, 2 of group 2.
SELECT * FROM t WHERE k = 1; -- 7
SELECT count(*), sum(v) FROM t WHERE k = 1 AND k = 2; -- 8: none
SELECT k FROM t WHERE k = 1 OR k = 2 ORDER BY k; -- 9
SELECT k FROM t WHERE k = 1 OR v = 20 ORDER BY k; -- 10: all
SELECT t.k, u.w FROM t JOIN u ON t.k = u.k WHERE u.k = 2; -- 11
SELECT s.k, s.n FROM (SELECT k, count(*) AS n FROM t GROUP BY k) s WHERE s.k = 2; -- 12

-- Both tables, a table twice, CTEs and IN subqueries: each group is read once.
SELECT t.k, u.w FROM t LEFT JOIN u ON t.k = u.k ORDER BY t.k; -- 13
SELECT count(*) FROM t WHERE k IN (SELECT k FROM u) AND v IN (SELECT v FROM t); -- 14
WITH c AS (SELECT v, count(*) AS n FROM t GROUP BY v) SELECT t.k, c.n FROM t JOIN c ON t.v = c.v ORDER BY t.k; -- 15
WITH c AS (SELECT k FROM t WHERE k = 3) SELECT k FROM c; -- 16
WITH c AS (SELECT k FROM t WHERE k = 3) SELECT t.v FROM t JOIN c ON t.k = c.k WHERE t.k = 4; -- 17: groups 1 and 3

-- A query that is refused has no entry, and neither has EXPLAIN.
SELECT zz FROM t; -- 18
SELECT t.k, u.k AS uk FROM t JOIN u ON t.v = u.w ORDER BY 1, 2; -- 19
EXPLAIN SELECT k FROM t WHERE k = 1; -- 20
SET citus.enable_repartition_joins TO on; -- 21
SELECT t.k, u.k AS uk FROM t JOIN u ON t.v = u.w ORDER BY 1, 2; -- 22
