-- Tables of one co-location group have each key in one shard group: a and b are beside each other, and c has a count of its own, and its second
-- column as its distribution column. A key that is taken is entered; EXPLAIN and what is no statement are not.
CREATE TABLE a (k bigint, v bigint, PRIMARY KEY (k)); -- 1
CREATE TABLE b (k bigint, v bigint, PRIMARY KEY (k)); -- 2
CREATE TABLE c (v bigint, k bigint); -- 3
SET citus.shard_count TO 4; -- 4
SELECT create_distributed_table('a', 'k'); -- 5: groups 0 to 3
SELECT create_distributed_table('b', 'k', colocate_with => 'a'); -- 6
SELECT create_distributed_table('c', 'k', shard_count => 2); -- 7: groups 4 and 5

-- Of four shards key 3 is in the second, of two in the first; 7 is in the last of two.
INSERT INTO a VALUES (3, 1); -- 8
INSERT INTO b VALUES (3, 2); -- 9
INSERT INTO c (k, v) VALUES (3, 8); -- 10
INSERT INTO c VALUES (9, 7); -- 11
INSERT INTO a VALUES (3, 4); -- 12: taken
EXPLAIN SELECT v FROM a; -- 13
DROP TABLE a; -- 14
SELECT v FROM b WHERE k = 3; -- 15
SELECT * FROM c ORDER BY k; -- 16
