-- Refusals of create_distributed_table, each beside faults that come after it.
SET citus.shard_count TO 4;
CREATE TABLE local (k bigint, v integer);
CREATE TABLE free (k bigint, v integer);
CREATE TABLE done (k bigint, v integer);
CREATE TABLE keyed (k bigint, v integer PRIMARY KEY);
SELECT create_distributed_table('done', 'k');
SELECT create_distributed_table('other', 'x', shard_count => 0, colocate_with => 'other');
SELECT create_distributed_table('done', 'x', shard_count => 0);
SELECT create_distributed_table('done', 'k', colocate_with => 'other');
SELECT create_distributed_table('keyed', 'x', shard_count => 0, colocate_with => 'local');
SELECT create_distributed_table('keyed', 'k', shard_count => 0, colocate_with => 'local');
SELECT create_distributed_table('keyed', 'k', shard_count => 0);
SELECT create_distributed_table('free', 'k', shard_count => 0, colocate_with => 'other');
SELECT create_distributed_table('free', 'k', shard_count => 0, colocate_with => 'done');
SELECT create_distributed_table('free', 'k', shard_count => 0);
SELECT create_distributed_table('free', 'k', shard_count => 129, colocate_with => 'none');
SELECT create_distributed_table('free', 'k', shard_count => 4, colocate_with => 'done');
SELECT create_distributed_table('free', 'k', colocate_with => 'free');
SELECT create_distributed_table('free', 'k', colocate_with => 'local');
SELECT create_distributed_table('free', 'v', colocate_with => 'done');
-- The refusals left all as it was.
SELECT k FROM free WHERE k = 1;
SELECT create_distributed_table('free', 'k', colocate_with => 'done');
INSERT INTO free VALUES (1, 2);
SELECT v FROM free WHERE k = 1;
SELECT create_distributed_table('keyed', 'v');
INSERT INTO keyed VALUES (1, 2);
SELECT k FROM keyed WHERE v = 2;
