-- The name of a table stands once, and its primary key has the distribution column.

CREATE TABLE t (k bigint, v bigint, PRIMARY KEY (k));
SELECT create_distributed_table('t', 'k', shard_count => 4);
CREATE TABLE t (k bigint);
SET citus.shard_count TO 129;
CREATE TABLE z (k bigint, v bigint, PRIMARY KEY (v));
SELECT create_distributed_table('z', 'k');
