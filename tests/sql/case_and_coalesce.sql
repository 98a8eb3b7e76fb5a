-- CASE takes the first arm that is true, COALESCE the first value that is not NULL.
-- Each query reads the rows of tenant 1. The answers are those of PostgreSQL.
SET citus.shard_count TO 4;
CREATE TABLE t0 (o bigint, k bigint, v bigint, PRIMARY KEY (o, k));
SELECT create_distributed_table('t0', 'o');
CREATE TABLE t3 (o bigint, id bigint, name text, PRIMARY KEY (o, id));
SELECT create_distributed_table('t3', 'o');
INSERT INTO t0 VALUES (1, 1, 10);
INSERT INTO t0 VALUES (1, 2, 20);
INSERT INTO t0 VALUES (1, 3, NULL);
INSERT INTO t0 VALUES (1, 4, 20);
INSERT INTO t0 VALUES (2, 1, 15);
INSERT INTO t0 VALUES (2, 9, 20);
INSERT INTO t3 VALUES (1, 1, 'b');
INSERT INTO t3 VALUES (1, 2, 'a');
INSERT INTO t3 VALUES (1, 3, NULL);
INSERT INTO t3 VALUES (1, 4, 'ab');
INSERT INTO t3 VALUES (1, 5, 'a');
INSERT INTO t3 VALUES (2, 6, 'a');
SELECT CASE WHEN v > 10 THEN k END FROM t0 WHERE o = 1 ORDER BY k;
SELECT CASE WHEN v > 10 THEN 1 WHEN v IS NULL THEN 2 ELSE 3 END FROM t0 WHERE o = 1 ORDER BY k;
SELECT CASE WHEN v > 10 THEN 1 WHEN v > 5 THEN 2 END FROM t0 WHERE o = 1 ORDER BY k;
SELECT COALESCE(v, k) FROM t0 WHERE o = 1 ORDER BY k;
SELECT COALESCE(v, NULL, 7) FROM t0 WHERE o = 1 ORDER BY k;
SELECT COALESCE(NULL, v) FROM t0 WHERE o = 1 ORDER BY k;
SELECT COALESCE(name, 'none') FROM t3 WHERE o = 1 ORDER BY id;
SELECT count(CASE WHEN v = 20 THEN 1 END) FROM t0 WHERE o = 1;
