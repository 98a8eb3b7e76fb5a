-- Moves from node to node. Tables are written as CSV.
CREATE TABLE t (k bigint, name text, PRIMARY KEY (k));
SELECT create_distributed_table('t', 'k', shard_count => 4);
CREATE TABLE r (id bigint PRIMARY KEY, word text);
SELECT create_reference_table('r');
INSERT INTO r VALUES (1, 'one'), (4, 'four');
INSERT INTO t VALUES (1, 'a'), (2, NULL), (3, 'c'), (4, 'd'), (6, 'f');

-- Group 0 is on node 1, 1 on 2, 2 on 3, and 3 on 1.
SELECT citus_move_shard_placement(102008, 1, 3);
SELECT citus_move_shard_placement(102008, 1, 2);
SELECT citus_move_shard_placement(102008, 3, 2);
SELECT citus_move_shard_placement(102008, 3, 1);
SELECT citus_move_shard_placement(102008, 2, 4);
SELECT citus_move_shard_placement(102011, 1, 2);
SELECT citus_move_shard_placement(102010, 3, 2);
SELECT k, name, word FROM t LEFT JOIN r ON k = id ORDER BY k;
UPDATE t SET name = 'z' WHERE name IS NULL;
SELECT citus_move_shard_placement(102010, 2, 1);
SELECT count(*), max(name) FROM t;
