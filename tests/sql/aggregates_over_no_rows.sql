-- Aggregates over no rows, with and without GROUP BY.
-- Each query reads the rows of tenant 1. The answers are those of PostgreSQL.
SET citus.shard_count TO 4;
CREATE TABLE t0 (o bigint, k bigint, v bigint, PRIMARY KEY (o, k));
SELECT create_distributed_table('t0', 'o');
CREATE TABLE t2 (o bigint, k bigint, v bigint);
SELECT create_distributed_table('t2', 'o');
INSERT INTO t0 VALUES (1, 1, 10);
INSERT INTO t0 VALUES (1, 2, 20);
INSERT INTO t0 VALUES (1, 3, NULL);
INSERT INTO t0 VALUES (1, 4, 20);
INSERT INTO t0 VALUES (2, 1, 15);
INSERT INTO t0 VALUES (2, 9, 20);
INSERT INTO t2 VALUES (2, 1, 1);
SELECT count(*) FROM t2 WHERE o = 1;
SELECT count(v), sum(v), min(v), max(v) FROM t2 WHERE o = 1;
SELECT k, count(*) FROM t2 WHERE o = 1 GROUP BY k;
SELECT count(*), sum(v) FROM t0 WHERE o = 1 AND k > 9;
SELECT v, sum(k) FROM t0 WHERE o = 1 AND k > 9 GROUP BY v;
SELECT count(*) FROM t2 WHERE o = 1 HAVING count(*) > 0;
SELECT 1 FROM t2 WHERE o = 1 HAVING 1 = 1;
SELECT count(v), count(*) FROM t0 WHERE o = 1 AND v IS NULL;
SELECT sum(v), min(v), max(v) FROM t0 WHERE o = 1 AND v IS NULL;
