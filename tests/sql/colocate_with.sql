-- `colocate_with` takes a distributed table of the same type, and no count beside it.

CREATE TABLE a (k bigint);
CREATE TABLE b (k bigint, t text);
SELECT create_distributed_table('b', 'k', colocate_with => 'nothing');
SELECT create_distributed_table('b', 'k', colocate_with => 'a');
SELECT create_distributed_table('a', 'k', shard_count => 4);
SELECT create_distributed_table('b', 't', colocate_with => 'a');
SELECT create_distributed_table('b', 'k', colocate_with => 'a', shard_count => 4);
SELECT create_distributed_table('b', 'k', shard_count => 129, colocate_with => 'a');
SELECT create_distributed_table('b', 'k', colocate_with => 'a');
