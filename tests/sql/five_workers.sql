-- With five workers the groups of each new co-location group are opened on nodes 1 to 5 in turn. Answers are as with two.
CREATE TABLE t (k bigint, v bigint, PRIMARY KEY (k));
SELECT create_distributed_table('t', 'k', shard_count => 7);
CREATE TABLE u (k bigint PRIMARY KEY);
SELECT create_distributed_table('u', 'k', shard_count => 3);
CREATE TABLE r (id bigint PRIMARY KEY, name text);
SELECT create_reference_table('r');
INSERT INTO t VALUES (1, 10), (2, 20), (3, 30), (4, 40), (5, 50), (6, 60), (7, 70);
INSERT INTO r VALUES (1, 'one'), (4, 'four');
SELECT t.k, t.v, r.name FROM t JOIN r ON t.k = r.id ORDER BY t.k;
SELECT count(*), sum(v) FROM t;
EXPLAIN SELECT * FROM t WHERE k = 1;
EXPLAIN SELECT * FROM t WHERE k = 4;
EXPLAIN SELECT t.k, r.name FROM t JOIN r ON t.k = r.id WHERE t.k = 7;
EXPLAIN SELECT name FROM r;
