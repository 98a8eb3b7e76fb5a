-- What is refused, by the catalogue, by the binder or for a key that is taken, leaves the rows as they are.

CREATE TABLE t (k bigint, v bigint, PRIMARY KEY (v));
SELECT create_distributed_table('t', 'k', shard_count => 4);
SELECT create_distributed_table('t', 'v', shard_count => 129);
INSERT INTO t VALUES (1, 10);
SELECT create_distributed_table('t', 'v', shard_count => 4);
INSERT INTO t VALUES (1, 10);
INSERT INTO t VALUES (2, 10);
INSERT INTO t VALUES (1);
INSERT INTO t (k) VALUES (1);
INSERT INTO t VALUES (1, 'a');
INSERT INTO t VALUES (1, 2), (2, 10);
SELECT k / 0 FROM t WHERE v = 10;
SELECT k FROM t;
SELECT k FROM t WHERE v = 10;
SELECT k FROM t WHERE v = 10 AND k = 2;
SELECT k FROM t WHERE v = 2;
