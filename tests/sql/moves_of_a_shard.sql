-- A move takes the shard's group with all its rows to another node. Queries and writes before and behind it are answered as without it.
CREATE TABLE t (k bigint, v bigint, PRIMARY KEY (k)); -- 1
SELECT create_distributed_table('t', 'k', shard_count => 4); -- 2

-- Keys 1, 6 and 9 lie in group 0, 3 and 8 in group 1, 2, 5 and 10 in group 2, 4 and 7 in group 3.
INSERT INTO t VALUES (1, 10), (2, 20), (3, 30), (4, 40), (6, 60), (9, 90); -- 3
DELETE FROM t WHERE k = 9; -- 4
SELECT citus_move_shard_placement(102008, 1, 2); -- 5: group 0 has two rows
SELECT * FROM t ORDER BY k; -- 6
INSERT INTO t VALUES (6, 61); -- 7: taken, also on the other node
INSERT INTO t VALUES (9, 91), (5, 50); -- 8
UPDATE t SET v = v + 1 WHERE k = 1; -- 9
UPDATE t SET v = v + 9223372036854775807 WHERE k = 1; -- 10: out of range
DELETE FROM t WHERE k = 6; -- 11
EXPLAIN SELECT * FROM t WHERE k = 1; -- 12
EXPLAIN SELECT * FROM t WHERE k = 2; -- 13

-- Another group, there and back again.
SELECT citus_move_shard_placement(102010, 1, 2); -- 14
SELECT citus_move_shard_placement(102008, 2, 1); -- 15
SELECT citus_move_shard_placement(102008, 1, 2); -- 16
SELECT citus_move_shard_placement(102008, 2, 1); -- 17
SELECT * FROM t WHERE k = 1; -- 18
SELECT count(*), sum(v) FROM t; -- 19

-- A group without rows moves too.
DELETE FROM t; -- 20
SELECT citus_move_shard_placement(102011, 2, 1); -- 21
INSERT INTO t VALUES (4, 1), (7, 2); -- 22
SELECT * FROM t ORDER BY k; -- 23
