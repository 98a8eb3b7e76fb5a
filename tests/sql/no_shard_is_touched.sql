-- Where a WHERE leaves no value for the distribution column, no shard is read or written.
CREATE TABLE t (k bigint, v bigint, PRIMARY KEY (k));
SELECT create_distributed_table('t', 'k', shard_count => 4);
INSERT INTO t VALUES (1, 10), (2, 20), (3, 30), (4, 40);
SELECT count(*), sum(v) FROM t WHERE k = 1 AND k = 2;
SELECT v, count(*) FROM t WHERE k = NULL GROUP BY v;
SELECT * FROM t WHERE k IN (1, 2) AND k IN (3, 4);
SELECT t.k, u.v FROM t JOIN t AS u ON t.k = u.k WHERE t.k = 1 AND u.k = 2;
SELECT max(v) FROM t WHERE k = NULL;
UPDATE t SET v = 0 WHERE k = 1 AND k = 2;
DELETE FROM t WHERE k = NULL;
SELECT * FROM t WHERE k = 1;
