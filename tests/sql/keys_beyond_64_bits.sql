-- Sums are wider than a bigint. Two that differ by 2^64 are two keys of GROUP BY, DISTINCT and of a join.
CREATE TABLE t (k bigint, id bigint, v bigint, PRIMARY KEY (k, id));
SELECT create_distributed_table('t', 'k', shard_count => 4);
INSERT INTO t VALUES (1, 1, 9223372036854775807), (1, 2, 9223372036854775807), (1, 3, 2), (2, 1, 0), (3, 1, -9223372036854775807), (3, 2, -9223372036854775807), (3, 3, -2), (4, 1, 5), (4, 2, -5), (5, 1, NULL);
SELECT k, sum(v) FROM t GROUP BY k ORDER BY k;
SELECT s.total, count(*), min(s.k) FROM (SELECT k, sum(v) AS total FROM t GROUP BY k) s GROUP BY s.total ORDER BY s.total;
SELECT DISTINCT s.total FROM (SELECT k, sum(v) AS total FROM t GROUP BY k) s ORDER BY s.total;
WITH s AS (SELECT k, sum(v) AS total FROM t GROUP BY k) SELECT a.k, b.k AS other FROM s a JOIN s b ON a.total = b.total ORDER BY a.k, b.k;
SELECT s.k FROM (SELECT k, sum(v) AS total FROM t GROUP BY k) s WHERE s.total IN (SELECT r.total FROM (SELECT k, sum(v) AS total FROM t GROUP BY k) r WHERE r.k = 1);
