-- A table whose distribution is refused stays local. It can't be beside itself.

CREATE TABLE t (k bigint PRIMARY KEY);
SELECT create_distributed_table('t', 'v');
SELECT create_distributed_table('t', 'k', shard_count => 0);
SELECT create_distributed_table('t', 'k', colocate_with => 't')
