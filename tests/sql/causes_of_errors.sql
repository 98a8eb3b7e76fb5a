-- The further causes of the errors 12, 14, 15, 18 and 19 in docs/ERRORS.md, in its order.
CREATE TABLE t (k bigint PRIMARY KEY, v bigint);
SELECT create_distributed_table('t', 'k', shard_count => 4);
CREATE TABLE u (k bigint, id bigint, w bigint, PRIMARY KEY (k, id));
SELECT create_distributed_table('u', 'k', colocate_with => 't');
CREATE TABLE r (id bigint PRIMARY KEY, name text);
SELECT create_reference_table('r');
CREATE TABLE l (a bigint PRIMARY KEY, b bigint);
INSERT INTO t VALUES (1, 10), (2, 20);

-- 12
SELECT w FROM t;
SELECT x.k FROM t;
SELECT x.* FROM t;
SELECT t.k FROM t x;
SELECT k AS a FROM t WHERE a = 1;
SELECT k AS a FROM t GROUP BY k HAVING a = 1;
SELECT k FROM t WHERE k IN (SELECT k FROM u WHERE u.w = t.v);
SELECT t.k FROM t JOIN u ON t.k = r.id JOIN r ON u.id = r.id;
SELECT k FROM t ORDER BY 2;
SELECT k FROM t ORDER BY 0;
SELECT count(*) FROM t GROUP BY 3;
INSERT INTO t VALUES (k, 1);
INSERT INTO t VALUES (5, DEFAULT);
UPDATE t SET v = w;
SELECT k FROM t WHERE true;
SELECT current_date FROM t;
SELECT t.k FROM t RIGHT JOIN u ON t.k = u.k;
SET citus.nope TO 1;
SELECT rebalance_table_shards(threshold => 1);
SELECT rebalance_table_shards(rebalance_strategy => 'by_size');
SELECT create_distributed_table('l', 'a', shards => 4);

-- 14
SELECT k FROM t WHERE v = 'a';
SELECT k FROM t WHERE k IN (1, 'a');
SELECT k FROM t WHERE v BETWEEN 1 AND 'a';
SELECT k FROM t WHERE k IN (SELECT name FROM r);
SELECT sum(name) FROM r;
SELECT name + 1 FROM r;
SELECT -name FROM r;
SELECT k FROM t WHERE v;
SELECT k FROM t WHERE NULL;
SELECT k FROM t WHERE v AND k = 1;
SELECT k FROM t WHERE NOT v;
SELECT CASE WHEN k THEN 1 END FROM t;
SELECT t.k FROM t JOIN u ON t.k;
SELECT k > 1 FROM t;
SELECT k FROM t ORDER BY k = 1;
SELECT count(k = 1) FROM t;
SELECT k FROM t WHERE (k = 1) IS NULL;
INSERT INTO t VALUES (1 = 1, 1);
SELECT COALESCE(v, 'a') FROM t;
SELECT CASE WHEN k = 1 THEN 1 ELSE 'a' END FROM t;
UPDATE t SET v = 'a';
INSERT INTO t VALUES (5, 'a');
SET citus.shard_count TO ON;
SET citus.enable_repartition_joins TO 1;

-- 15
SELECT k, v, count(*) FROM t GROUP BY k;
SELECT k FROM t WHERE count(*) > 1;
SELECT t.k FROM t JOIN u ON t.k = count(*);
SELECT count(*) FROM t GROUP BY count(*);
SELECT sum(count(*)) FROM t;
UPDATE t SET v = count(*);
INSERT INTO t VALUES (count(*), 1);
SELECT DISTINCT k FROM t ORDER BY v;

-- 18
SELECT v / 0 FROM t;
SELECT v % 0 FROM t;
SELECT v / k FROM t;
SELECT sum(v) / count(v) FROM t;
SELECT v / (2) FROM t;
SELECT v / (1 + 1) FROM t;
SELECT v / - -2 FROM t;
SELECT v % NULL FROM t;
SELECT CASE WHEN v = 0 THEN 0 ELSE 1 / 0 END FROM t;
SELECT v / -2 AS half FROM t WHERE k = 1;

-- 19: a query groups over a join
SELECT count(*) FROM t JOIN u ON t.k = u.k;
SELECT count(*) FROM t, r;
SELECT count(*) FROM t LEFT JOIN u ON t.k = u.k;
SELECT t.k FROM t JOIN u ON t.k = u.k GROUP BY t.k;
SELECT t.k FROM t JOIN u ON t.k = u.k HAVING count(*) > 1;
SELECT max(v) FROM (SELECT t.v FROM t JOIN u ON t.k = u.k) j;
WITH j AS (SELECT t.v FROM t JOIN u ON t.k = u.k) SELECT max(v) FROM j;
SELECT DISTINCT t.k FROM t JOIN u ON t.k = u.k;
SELECT t.k, n.total FROM t LEFT JOIN (SELECT k, sum(w) AS total FROM u GROUP BY k) n ON t.k = n.k ORDER BY t.k;
