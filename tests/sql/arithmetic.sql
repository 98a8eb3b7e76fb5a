-- Quotients are cut toward zero, and numbers go beyond 64 bits.
-- Each query reads the rows of tenant 1. The answers are those of PostgreSQL.
SET citus.shard_count TO 4;
CREATE TABLE t0 (o bigint, k bigint, v bigint, PRIMARY KEY (o, k));
SELECT create_distributed_table('t0', 'o');
CREATE TABLE t4 (o bigint, a bigint, b bigint);
SELECT create_distributed_table('t4', 'o');
INSERT INTO t0 VALUES (1, 1, 10);
INSERT INTO t0 VALUES (1, 2, 20);
INSERT INTO t0 VALUES (1, 3, NULL);
INSERT INTO t0 VALUES (1, 4, 20);
INSERT INTO t0 VALUES (2, 1, 15);
INSERT INTO t0 VALUES (2, 9, 20);
INSERT INTO t4 VALUES (1, -7, 1);
INSERT INTO t4 VALUES (1, 7, 2);
INSERT INTO t4 VALUES (1, NULL, 3);
INSERT INTO t4 VALUES (1, 0, 4);
INSERT INTO t4 VALUES (2, 5, 5);
SELECT a, a / 2, a % 2 FROM t4 WHERE o = 1 ORDER BY b;
SELECT a / -2, a % -2 FROM t4 WHERE o = 1 ORDER BY b;
SELECT -a, a * a, a - 1, a + b FROM t4 WHERE o = 1 ORDER BY b;
SELECT 9223372036854775807 + 1 FROM t4 WHERE o = 1 AND a = 0;
SELECT k * 9223372036854775807 FROM t0 WHERE o = 1 AND k = 4;
SELECT NULL + k FROM t0 WHERE o = 1 AND k = 1;
