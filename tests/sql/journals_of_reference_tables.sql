-- A reference table is a group of its own, on every node. Groups are numbered in the order in which they are opened.
CREATE TABLE r (id bigint, name text, PRIMARY KEY (id)); -- 1
SELECT create_reference_table('r'); -- 2
CREATE TABLE t (k bigint, v bigint, PRIMARY KEY (k)); -- 3
SELECT create_distributed_table('t', 'k', shard_count => 4); -- 4
CREATE TABLE s (id bigint PRIMARY KEY); -- 5
SELECT create_reference_table('s'); -- 6
CREATE TABLE u (k bigint PRIMARY KEY); -- 7
SELECT create_distributed_table('u', 'k', shard_count => 2); -- 8
CREATE TABLE l (k bigint); -- 9: local, in no group
INSERT INTO r VALUES (1, 'a|b'), (2, ''); -- 10
INSERT INTO r VALUES (3, 'c'), (2, 'd'); -- 11
INSERT INTO t VALUES (1, 10), (2, 20); -- 12
UPDATE r SET name = 'e' WHERE id = 2; -- 13
UPDATE r SET name = 'e' WHERE id = 7; -- 14: no row, the group all the same
SELECT name FROM r ORDER BY id; -- 15
SELECT t.k, r.name FROM t JOIN r ON t.k = r.id ORDER BY t.k; -- 16
SELECT t.k, r.name FROM t JOIN r ON t.k = r.id WHERE t.k = 2; -- 17
SELECT r.name FROM r JOIN s ON r.id = s.id; -- 18
COPY s FROM STDIN;
1
2
\.
DELETE FROM s WHERE id = 1; -- 20, behind the COPY
