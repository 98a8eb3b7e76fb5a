-- DISTINCT takes NULL for one value.
-- Each query reads the rows of tenant 1. The answers are those of PostgreSQL.
SET citus.shard_count TO 4;
CREATE TABLE t0 (o bigint, k bigint, v bigint, PRIMARY KEY (o, k));
SELECT create_distributed_table('t0', 'o');
CREATE TABLE t1 (o bigint, k bigint, w bigint);
SELECT create_distributed_table('t1', 'o');
INSERT INTO t0 VALUES (1, 1, 10);
INSERT INTO t0 VALUES (1, 2, 20);
INSERT INTO t0 VALUES (1, 3, NULL);
INSERT INTO t0 VALUES (1, 4, 20);
INSERT INTO t0 VALUES (2, 1, 15);
INSERT INTO t0 VALUES (2, 9, 20);
INSERT INTO t1 VALUES (1, 1, 100);
INSERT INTO t1 VALUES (1, 1, NULL);
INSERT INTO t1 VALUES (1, 3, 300);
INSERT INTO t1 VALUES (1, 5, 500);
INSERT INTO t1 VALUES (2, 3, 7);
SELECT DISTINCT v FROM t0 WHERE o = 1 ORDER BY v;
SELECT DISTINCT k FROM t1 WHERE o = 1 ORDER BY k DESC;
SELECT DISTINCT v / 20 FROM t0 WHERE o = 1 ORDER BY 1;
SELECT DISTINCT count(*) FROM t0 WHERE o = 1 GROUP BY v ORDER BY 1;
SELECT DISTINCT v FROM t0 WHERE o = 1 ORDER BY v LIMIT 1 OFFSET 1;
SELECT DISTINCT NULL, 1 FROM t0 WHERE o = 1;
