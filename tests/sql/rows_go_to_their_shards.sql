-- An INSERT of several rows puts each into the shard of its key, and counts them all.
CREATE TABLE t (k bigint, v bigint, note text, PRIMARY KEY (k));
SELECT create_distributed_table('t', 'k', shard_count => 4);
INSERT INTO t VALUES (1, 10, 'a'), (2, 20, NULL), (3, NULL, ''), (4, 40, 'a|b');
INSERT INTO t (note, k) VALUES ('x', 5), ('y', -6), (NULL, 3 * 2);
SELECT * FROM t WHERE k = 1;
SELECT * FROM t WHERE k = 2;
SELECT * FROM t WHERE k = 3;
SELECT * FROM t WHERE 4 = k;
SELECT * FROM t WHERE k = 5;
SELECT * FROM t WHERE k = -6;
SELECT * FROM t WHERE k = 6;
SELECT * FROM t WHERE k = 7;
