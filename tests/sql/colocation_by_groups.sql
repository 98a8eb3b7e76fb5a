-- Which tables share groups, shown by how many are left of the 512: tables of the same type and count that were made without
-- options do, and so does one that names another. A count, none, or another type opens groups of its own.
SET citus.shard_count TO 128;
CREATE TABLE a (k bigint, t text);
CREATE TABLE b (k bigint, t text);
CREATE TABLE c (k bigint, t text);
CREATE TABLE d (k bigint, t text);
CREATE TABLE f (k bigint, t text);
CREATE TABLE j (k bigint, t text);
CREATE TABLE e (k bigint, t text, n integer);
CREATE TABLE g (k bigint, t text, n integer);
CREATE TABLE h (k bigint, t text, n integer);
CREATE TABLE i (k bigint, t text, n integer);
CREATE TABLE m (k bigint, t text, n integer);
SELECT create_distributed_table('a', 'k');
SELECT create_distributed_table('b', 'k');
SELECT create_distributed_table('c', 'k', colocate_with => 'none');
SELECT create_distributed_table('d', 'k', shard_count => 128);
SELECT create_distributed_table('e', 't');
-- All 512 are taken.
SELECT create_distributed_table('f', 'k');
SELECT create_distributed_table('g', 't');
SELECT create_distributed_table('h', 'n');
SELECT create_distributed_table('h', 'k', colocate_with => 'none');
SELECT create_distributed_table('h', 'k', shard_count => 128);
SELECT create_distributed_table('h', 'k', shard_count => 1);
SELECT create_distributed_table('h', 'k', colocate_with => 'default');
SELECT create_distributed_table('i', 'k', colocate_with => 'c');
SELECT create_distributed_table('j', 'k', colocate_with => 'd');
SET citus.shard_count TO 127;
SELECT create_distributed_table('m', 'k');
SELECT create_distributed_table('m', 'k', colocate_with => 'a');
