-- A move needs a spare store of the second node for each table of the group. The group that is moved keeps its own until then, and gives
-- them back to the first node. Each node has 2048 stores.

SET citus.shard_count TO 128;
CREATE TABLE t1 (k bigint PRIMARY KEY);
CREATE TABLE t2 (k bigint PRIMARY KEY);
CREATE TABLE t3 (k bigint PRIMARY KEY);
CREATE TABLE t4 (k bigint PRIMARY KEY);
CREATE TABLE t5 (k bigint PRIMARY KEY);
CREATE TABLE t6 (k bigint PRIMARY KEY);
CREATE TABLE t7 (k bigint PRIMARY KEY);
CREATE TABLE t8 (k bigint PRIMARY KEY);
CREATE TABLE t9 (k bigint PRIMARY KEY);
CREATE TABLE t10 (k bigint PRIMARY KEY);
CREATE TABLE t11 (k bigint PRIMARY KEY);
CREATE TABLE t12 (k bigint PRIMARY KEY);
CREATE TABLE t13 (k bigint PRIMARY KEY);
CREATE TABLE t14 (k bigint PRIMARY KEY);
CREATE TABLE t15 (k bigint PRIMARY KEY);
CREATE TABLE t16 (k bigint PRIMARY KEY);
CREATE TABLE t17 (k bigint PRIMARY KEY);
CREATE TABLE t18 (k bigint PRIMARY KEY);
CREATE TABLE t19 (k bigint PRIMARY KEY);
CREATE TABLE t20 (k bigint PRIMARY KEY);
CREATE TABLE t21 (k bigint PRIMARY KEY);
CREATE TABLE t22 (k bigint PRIMARY KEY);
CREATE TABLE t23 (k bigint PRIMARY KEY);
CREATE TABLE t24 (k bigint PRIMARY KEY);
CREATE TABLE t25 (k bigint PRIMARY KEY);
CREATE TABLE t26 (k bigint PRIMARY KEY);
CREATE TABLE t27 (k bigint PRIMARY KEY);
CREATE TABLE t28 (k bigint PRIMARY KEY);
CREATE TABLE t29 (k bigint PRIMARY KEY);
CREATE TABLE t30 (k bigint PRIMARY KEY);
CREATE TABLE t31 (k bigint PRIMARY KEY);
CREATE TABLE t32 (k bigint PRIMARY KEY);

-- Each takes 64 stores of each node.
SELECT create_distributed_table('t1', 'k');
SELECT create_distributed_table('t2', 'k');
SELECT create_distributed_table('t3', 'k');
SELECT create_distributed_table('t4', 'k');
SELECT create_distributed_table('t5', 'k');
SELECT create_distributed_table('t6', 'k');
SELECT create_distributed_table('t7', 'k');
SELECT create_distributed_table('t8', 'k');
SELECT create_distributed_table('t9', 'k');
SELECT create_distributed_table('t10', 'k');
SELECT create_distributed_table('t11', 'k');
SELECT create_distributed_table('t12', 'k');
SELECT create_distributed_table('t13', 'k');
SELECT create_distributed_table('t14', 'k');
SELECT create_distributed_table('t15', 'k');
SELECT create_distributed_table('t16', 'k');
SELECT create_distributed_table('t17', 'k');
SELECT create_distributed_table('t18', 'k');
SELECT create_distributed_table('t19', 'k');
SELECT create_distributed_table('t20', 'k');
SELECT create_distributed_table('t21', 'k');
SELECT create_distributed_table('t22', 'k');
SELECT create_distributed_table('t23', 'k');
SELECT create_distributed_table('t24', 'k');
SELECT create_distributed_table('t25', 'k');
SELECT create_distributed_table('t26', 'k');
SELECT create_distributed_table('t27', 'k');
SELECT create_distributed_table('t28', 'k');
SELECT create_distributed_table('t29', 'k');
SELECT create_distributed_table('t30', 'k');
SELECT create_distributed_table('t31', 'k');

-- 64 are left on each. A group has 31 tables.
SELECT citus_move_shard_placement(102008, 1, 2);
SELECT citus_move_shard_placement(102010, 1, 2);
SELECT citus_move_shard_placement(102012, 1, 2);
SELECT citus_move_shard_placement(105852, 1, 2); -- the same group
SELECT citus_move_shard_placement(102009, 2, 2); -- so too where it is on that node
SELECT citus_move_shard_placement(102009, 1, 2); -- or isn't on the first
SELECT citus_move_shard_placement(102008, 1, 3);

-- 62 shards of this table would be on node 1, which has 126, and 66 on node 2.
SELECT create_distributed_table('t32', 'k');
SELECT create_distributed_table('t32', 'k', shard_count => 6);

-- What is moved away from a node leaves room on it.
SELECT citus_move_shard_placement(102009, 2, 1);
SELECT citus_move_shard_placement(102012, 1, 2);
SELECT citus_move_shard_placement(102009, 1, 2);
SELECT citus_move_shard_placement(102010, 2, 1);
SELECT citus_move_shard_placement(102012, 2, 1);

-- A group of each node has changed places with one of the other: 64 are left on each, and 64 shards of the table are on each.
SELECT create_distributed_table('t32', 'k');
SELECT citus_move_shard_placement(102008, 2, 1);
INSERT INTO t32 VALUES (1), (2), (3);
SELECT count(*) FROM t32;
