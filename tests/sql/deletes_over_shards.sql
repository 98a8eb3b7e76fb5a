-- A DELETE goes to the shards that its WHERE leaves, and counts the rows that it takes away.
CREATE TABLE t (k bigint, v bigint, PRIMARY KEY (k));
SELECT create_distributed_table('t', 'k', shard_count => 4);
INSERT INTO t VALUES (1, 10), (2, 20), (3, 30), (4, 40), (5, 50), (6, 60);
DELETE FROM t WHERE k IN (1, 3);
UPDATE t SET v = v + 1;
DELETE FROM t WHERE v = 41;
DELETE FROM t WHERE k = 9;
DELETE FROM t WHERE k = 5 AND k = 6;
SELECT * FROM t WHERE k = 1;
SELECT * FROM t WHERE k = 2;
SELECT * FROM t WHERE k = 3;
SELECT * FROM t WHERE k = 4;
DELETE FROM t WHERE NOT (k = 2 OR v > 55);
DELETE FROM t;
DELETE FROM t;
-- A key can be used again.
INSERT INTO t VALUES (1, 11), (2, 22);
SELECT * FROM t WHERE k = 1;
SELECT * FROM t WHERE k = 2;
