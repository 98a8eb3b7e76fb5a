-- The names that outputs have without AS.
-- Each query reads the rows of tenant 1. The answers are those of PostgreSQL.
SET citus.shard_count TO 4;
CREATE TABLE t (o bigint, k bigint, v integer, s text, PRIMARY KEY (o, k));
SELECT create_distributed_table('t', 'o');
INSERT INTO t VALUES (1, 1, 1, 'a');
INSERT INTO t VALUES (1, 2, 2, 'b');
INSERT INTO t VALUES (1, 3, NULL, 'it''s');
INSERT INTO t VALUES (1, 4, 3, NULL);
INSERT INTO t VALUES (1, 5, 2, 'x');
INSERT INTO t VALUES (1, 6, -1, '');
INSERT INTO t VALUES (1, 7, 7, 'a');
INSERT INTO t VALUES (1, 8, 5, '--');
INSERT INTO t VALUES (2, 1, 9, 'z');
INSERT INTO t VALUES (2, 9, 2, 'b');
SELECT v + 1, -v, (v), NULL FROM t WHERE o = 1 ORDER BY 1, 2, 3, 4;
SELECT CASE WHEN v = 1 THEN 2 END, coalesce(v, 1), CASE WHEN v = 1 THEN 2 ELSE k END FROM t WHERE o = 1 ORDER BY 1, 2, 3;
SELECT (CASE WHEN v = 1 THEN 2 ELSE coalesce(k, 2) END) FROM t WHERE o = 1 ORDER BY 1;
SELECT v + 1, 2, count(*) + 1 FROM t WHERE o = 1 GROUP BY v + 1 ORDER BY 1, 2, 3;
SELECT DISTINCT v + 1, 'a' FROM t WHERE o = 1 ORDER BY 2, v + 1;
SELECT 1, -1, ((v)), t.v, t.k AS v FROM t WHERE o = 1 AND k = 1;
SELECT count(*), count(v), sum(v), min(s), max(s) FROM t WHERE o = 1;
SELECT coalesce(v, 1), (coalesce(s, 'x')), CASE WHEN v = 1 THEN 2 END, CASE WHEN v = 1 THEN 2 ELSE 3 END, CASE WHEN v = 1 THEN 2 ELSE v END FROM t WHERE o = 1 AND k = 1;
SELECT count(*) + 1, - sum(v), (sum(v)), max(v) AS MAX FROM t WHERE o = 1;
SELECT k AS count, v AS sum, s AS key, v AS end FROM t WHERE o = 1 AND k = 1;
