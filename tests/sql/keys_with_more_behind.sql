-- What a query that groups makes of its keys: a longer sum or product that begins with a key.
-- Each query reads the rows of tenant 1. The answers are those of PostgreSQL.
SET citus.shard_count TO 4;
CREATE TABLE t0 (o bigint, k bigint, v bigint, PRIMARY KEY (o, k));
SELECT create_distributed_table('t0', 'o');
INSERT INTO t0 VALUES (1, 1, 10);
INSERT INTO t0 VALUES (1, 2, 20);
INSERT INTO t0 VALUES (1, 3, NULL);
INSERT INTO t0 VALUES (1, 4, 20);
INSERT INTO t0 VALUES (2, 1, 15);
INSERT INTO t0 VALUES (2, 9, 20);
SELECT k + v + 1 FROM t0 WHERE o = 1 GROUP BY k + v ORDER BY 1;
SELECT k + v + (k + v) FROM t0 WHERE o = 1 GROUP BY k + v ORDER BY 1;
SELECT k + v - k, k - 1 FROM t0 WHERE o = 1 GROUP BY k, k + v ORDER BY k;
SELECT v - 1 - 2 - 3 + 4 FROM t0 WHERE o = 1 GROUP BY v - 1 - 2 ORDER BY 1;
SELECT v - 1 - 2 - v FROM t0 WHERE o = 1 GROUP BY v - 1, v, v - 1 - 2 ORDER BY v;
SELECT v * 2 * 3 % 5 FROM t0 WHERE o = 1 GROUP BY v * 2 ORDER BY v * 2;
SELECT (v * 2 / 3 + 1) * 4 FROM t0 WHERE o = 1 GROUP BY v * 2 ORDER BY 1;
SELECT k + v + count(*) - sum(k) FROM t0 WHERE o = 1 GROUP BY k + v ORDER BY 1;
SELECT count(*) FROM t0 WHERE o = 1 GROUP BY k + v HAVING k + v + 1 > 0 ORDER BY k + v - 1;
