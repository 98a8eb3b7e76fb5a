-- Each group is read once for a query and all its subplans, however many there are; and a group that no row of which could count, never.
CREATE TABLE t (k bigint, v bigint, PRIMARY KEY (k)); -- 1
SELECT create_distributed_table('t', 'k', shard_count => 4); -- 2
INSERT INTO t VALUES (1, 10), (2, 20), (3, 30), (4, 40); -- 3
CREATE TABLE u (k bigint, w bigint, PRIMARY KEY (k)); -- 4
SELECT create_distributed_table('u', 'k', colocate_with => 't'); -- 5
INSERT INTO u VALUES (1, 20), (2, NULL), (3, 20); -- 6

-- A CTE is a subplan, of which each task of the query has all rows.
WITH c AS (SELECT v, count(*) AS n FROM t GROUP BY v) SELECT t.k, c.n FROM t JOIN c ON t.v = c.v ORDER BY t.k; -- 7
EXPLAIN WITH c AS (SELECT v, count(*) AS n FROM t GROUP BY v) SELECT t.k, c.n FROM t JOIN c ON t.v = c.v ORDER BY t.k; -- 8: no entry
WITH c AS (SELECT k FROM t), d AS (SELECT k FROM c WHERE k > 2) SELECT count(*) FROM d; -- 9: one over another

-- So is an IN subquery. Nothing is for sure not among rows with a NULL.
SELECT k FROM t WHERE v IN (SELECT w FROM u); -- 10
SELECT k FROM t WHERE v NOT IN (SELECT w FROM u); -- 11

-- A subquery of FROM that groups by another column than the distribution column is one: it leaves the query no shard, and so no task.
SELECT s.n FROM (SELECT v, count(*) AS n FROM t GROUP BY v) s ORDER BY 1 LIMIT 1; -- 12
EXPLAIN SELECT s.n FROM (SELECT v, count(*) AS n FROM t GROUP BY v) s ORDER BY 1 LIMIT 1; -- 13

-- One that has no value of the distribution column stays in the query, which reads the reference table alone.
CREATE TABLE r (id bigint, name text, PRIMARY KEY (id)); -- 14
SELECT create_reference_table('r'); -- 15: group 4
INSERT INTO r VALUES (1, 'a|b'), (2, ''); -- 16
SELECT r.id, s.n FROM r CROSS JOIN (SELECT count(*) AS n FROM t WHERE k = 1 AND k = 2) s ORDER BY r.id; -- 17
