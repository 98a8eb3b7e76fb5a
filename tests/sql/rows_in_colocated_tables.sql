-- Tables beside each other by default and by name, with a shard count of their own, another type, and after another
-- setting: each has its own rows.

SET citus.shard_count TO 4;
CREATE TABLE a (k bigint, v bigint);
CREATE TABLE b (k bigint, v bigint);
CREATE TABLE c (k bigint, v bigint);
CREATE TABLE d (k bigint, v bigint);
CREATE TABLE e (k bigint, v bigint);
CREATE TABLE f (k text, v bigint);
CREATE TABLE g (v bigint, k bigint);
SELECT create_distributed_table('a', 'k');
SELECT create_distributed_table('b', 'k', colocate_with => 'default');
SELECT create_distributed_table('c', 'k', colocate_with => 'none');
SELECT create_distributed_table('d', 'k', colocate_with => 'c');
SELECT create_distributed_table('e', 'k', shard_count => 3);
SELECT create_distributed_table('f', 'k');
SET citus.shard_count TO 2;
SELECT create_distributed_table('g', 'k');
INSERT INTO a VALUES (3, 1);
INSERT INTO b VALUES (3, 2);
INSERT INTO c VALUES (3, 3);
INSERT INTO d VALUES (3, 4);
INSERT INTO e VALUES (3, 5);
INSERT INTO f VALUES ('a', 6);
INSERT INTO f VALUES ('', 7);
INSERT INTO g (k, v) VALUES (3, 8);
INSERT INTO g VALUES (9, 7);
INSERT INTO a VALUES (3, 1);
SELECT v FROM f WHERE k = '';
SELECT v FROM a WHERE k = 3;
SELECT v FROM b WHERE k = 3;
SELECT v FROM c WHERE k = 3;
SELECT v FROM d WHERE k = 3;
SELECT v FROM e WHERE k = 3;
SELECT v FROM f WHERE k = 'a';
SELECT v FROM g WHERE k = 3;
SELECT v FROM g WHERE k = 7;
SELECT v FROM a WHERE k = 9;
