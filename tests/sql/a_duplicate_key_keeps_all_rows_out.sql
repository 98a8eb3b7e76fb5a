-- Of an INSERT with a primary key that is there, or that stands in it twice, no row is kept, in no shard.
CREATE TABLE t (k bigint, v bigint, PRIMARY KEY (k));
SELECT create_distributed_table('t', 'k', shard_count => 4);
INSERT INTO t VALUES (1, 10), (2, 20), (3, 30), (4, 40);
INSERT INTO t VALUES (5, 50), (1, 99);
SELECT * FROM t WHERE k = 5;
SELECT * FROM t WHERE k = 1;
INSERT INTO t VALUES (7, 70), (8, 80), (7, 71);
SELECT * FROM t WHERE k = 7;
SELECT * FROM t WHERE k = 8;
INSERT INTO t VALUES (5, 50), (7, 70), (8, 80);
SELECT * FROM t WHERE k = 5;
SELECT * FROM t WHERE k = 7;
SELECT * FROM t WHERE k = 8;
-- A key of two columns, and a table without one.
CREATE TABLE o (store bigint, id bigint, n integer, PRIMARY KEY (store, id));
SELECT create_distributed_table('o', 'store', shard_count => 3);
INSERT INTO o VALUES (1, 1, 1), (1, 2, 2), (2, 1, 3), (2, 2, 4);
INSERT INTO o VALUES (3, 1, 5), (2, 3, 6), (1, 2, 7);
SELECT id, n FROM o WHERE store = 1 ORDER BY id;
SELECT id, n FROM o WHERE store = 2 ORDER BY id;
SELECT id, n FROM o WHERE store = 3 ORDER BY id;
CREATE TABLE e (k bigint, v bigint);
SELECT create_distributed_table('e', 'k');
INSERT INTO e VALUES (1, 1), (1, 1), (2, 1), (1, 1);
SELECT count(*) FROM e WHERE k = 1;
