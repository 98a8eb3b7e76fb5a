-- A subquery or CTE with LIMIT or OFFSET needs an ORDER BY over all its outputs, so that its rows are one set.
CREATE TABLE t (k bigint PRIMARY KEY, v bigint);
SELECT create_distributed_table('t', 'k', shard_count => 4);
INSERT INTO t VALUES (1, 10), (2, 20), (3, 20), (4, 5);
SELECT s.k FROM (SELECT k, v FROM t ORDER BY v LIMIT 2) s; -- U4
SELECT s.k FROM (SELECT k, v FROM t LIMIT 2) s; -- U4
SELECT s.k FROM (SELECT k FROM t OFFSET 1) s; -- U4
SELECT s.k FROM (SELECT k, v FROM t ORDER BY v, k LIMIT 2) s ORDER BY s.k;
SELECT s.k FROM (SELECT k, v FROM t ORDER BY 2 DESC, 1 OFFSET 2) s ORDER BY s.k;
WITH c AS (SELECT k FROM t LIMIT 1) SELECT k FROM c; -- U4
WITH c AS (SELECT k FROM t ORDER BY k LIMIT 1) SELECT k FROM c;
SELECT k FROM t WHERE k IN (SELECT k FROM t LIMIT 1); -- U4
SELECT k FROM t WHERE k IN (SELECT k FROM t ORDER BY k DESC LIMIT 2) ORDER BY k;
SELECT k FROM t WHERE k = 1 AND v IN (SELECT v FROM t ORDER BY k LIMIT 1); -- U4: k isn't an output
SELECT v FROM t ORDER BY v LIMIT 1; -- the outermost query may leave it open
