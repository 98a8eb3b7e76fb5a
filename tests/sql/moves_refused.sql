-- A move that is refused before it begins has no entry, and changes nothing. The causes come in this order: there is no such shard, no such
-- node, too few spare stores, the group isn't on the first node, it is on the second.
SELECT citus_move_shard_placement(102008, 1, 2); -- 1: no table
CREATE TABLE t (k bigint, v bigint, PRIMARY KEY (k)); -- 2
SELECT citus_move_shard_placement(102008, 1, 2); -- 3: a local table has no shard
SELECT create_distributed_table('t', 'k', shard_count => 4); -- 4: shards 102008 to 102011
CREATE TABLE r (id bigint PRIMARY KEY); -- 5
SELECT create_reference_table('r'); -- 6: shard 102012
INSERT INTO t VALUES (1, 10), (2, 20), (3, 30), (4, 40); -- 7

-- Shards: 102012 is on every node.
SELECT citus_move_shard_placement(102012, 1, 2); -- 8
SELECT citus_move_shard_placement(102013, 1, 2); -- 9
SELECT citus_move_shard_placement(102007, 1, 2); -- 10
SELECT citus_move_shard_placement(0, 1, 1); -- 11
SELECT citus_move_shard_placement(7, 2, 9); -- 12
SELECT citus_move_shard_placement(9223372036854775807, 1, 2); -- 13

-- Nodes.
SELECT citus_move_shard_placement(102008, 1, 3); -- 14
SELECT citus_move_shard_placement(102008, 1, 0); -- 15
SELECT citus_move_shard_placement(102008, 2, 3); -- 16
SELECT citus_move_shard_placement(102008, 3, 3); -- 17
SELECT citus_move_shard_placement(102008, 1, 4294967295); -- 18

-- The group is on another node.
SELECT citus_move_shard_placement(102008, 2, 1); -- 19
SELECT citus_move_shard_placement(102008, 2, 2); -- 20
SELECT citus_move_shard_placement(102009, 1, 2); -- 21
SELECT citus_move_shard_placement(102008, 0, 2); -- 22
SELECT citus_move_shard_placement(102008, 4294967295, 2); -- 23

-- It is there already.
SELECT citus_move_shard_placement(102008, 1, 1); -- 24
SELECT citus_move_shard_placement(102009, 2, 2); -- 25

-- Arguments.
SELECT citus_move_shard_placement(102008, 1, 4294967296); -- 26
SELECT citus_move_shard_placement(102008, 4294967296, 2); -- 27
SELECT citus_move_shard_placement(102008, 1); -- 28
SELECT citus_move_shard_placement('102008', 1, 2); -- 29

SELECT * FROM t ORDER BY k; -- 30
SELECT citus_move_shard_placement(102008, 1, 2); -- 31
SELECT citus_move_shard_placement(102008, 1, 2); -- 32
SELECT citus_move_shard_placement(102008, 2, 2); -- 33
