-- Tables, and their distribution by the first column that the primary key has. What is refused leaves nothing.

CREATE TABLE a (k bigint, v bigint, PRIMARY KEY (v));
CREATE TABLE A (x int);
CREATE TABLE b (x int, y text, X bigint);
CREATE TABLE b (x int, PRIMARY KEY (y));
CREATE TABLE b (x int, PRIMARY KEY (x, x));
CREATE TABLE b (x int, y text);
SELECT create_distributed_table('c', 'k');
SELECT create_distributed_table('A', 'k');
SELECT create_distributed_table('a', 'K');
SELECT create_distributed_table('a', 'k');
SELECT create_distributed_table('a', 'k', shard_count => 0);
SELECT create_distributed_table('b', 'x', shard_count => 0);
SELECT create_distributed_table('b', 'x', shard_count => 129);
SELECT create_distributed_table('b', 'x', shard_count => 4294967296);
SELECT create_distributed_table('b', 'x', shards => 4);
SELECT create_distributed_table('b', 'x');
SELECT create_distributed_table('b', 'x');
SELECT create_distributed_table('b', 'z', shard_count => 0);
CREATE TABLE b (x int);
SELECT create_distributed_table('a', 'v');
