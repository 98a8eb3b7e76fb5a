-- Tables beside each other: by default, beside a named one, alone, of another type, and on every node.
CREATE TABLE a (k bigint, t text, i INT, PRIMARY KEY (k, t, i));
CREATE TABLE b (k bigint, t text, i integer, PRIMARY KEY (k, t, i));
CREATE TABLE c (k bigint, t text, i integer, PRIMARY KEY (k, t, i));
CREATE TABLE d (k bigint, t text, i integer, PRIMARY KEY (k, t, i));
CREATE TABLE e (k bigint, t text, i integer, PRIMARY KEY (k, t, i));
CREATE TABLE f (k bigint, t text, i integer, PRIMARY KEY (k, t, i));
CREATE TABLE r (k bigint PRIMARY KEY);
SELECT create_distributed_table('a', 'i', shard_count => 2); -- by it no later table is placed
SET citus.shard_count = 2;
SELECT create_distributed_table('b', 'i');
SELECT create_reference_table('r');
SELECT create_distributed_table('c', 'i'); -- beside b
SELECT create_distributed_table('d', 'i', colocate_with => 'none');
SELECT create_distributed_table('e', 't', colocate_with => 'a'); -- of another type: refused
SELECT create_distributed_table('e', 't', colocate_with => 'default');
SELECT create_distributed_table('f', 'i', colocate_with => 'a');
INSERT INTO b VALUES (1, 'x', 1), (1, 'x', 2), (1, 'x', 3);
DELETE FROM b WHERE i = 2;
UPDATE b SET k = 7;
COPY r FROM STDIN;
1
2
\.
INSERT INTO r VALUES (2), (3);
