-- There are at most 512 shard groups. A table beside another needs no group.

CREATE TABLE a (k bigint);
CREATE TABLE b (k bigint);
CREATE TABLE c (k bigint);
CREATE TABLE d (k bigint);
CREATE TABLE e (k bigint);
SELECT create_distributed_table('a', 'k', shard_count => 128);
SELECT create_distributed_table('b', 'k', shard_count => 128);
SELECT create_distributed_table('c', 'k', shard_count => 128);
SELECT create_distributed_table('d', 'k', shard_count => 128);
SELECT create_distributed_table('e', 'k', shard_count => 1);
SELECT create_distributed_table('e', 'k', colocate_with => 'd');
