-- What the binder takes, and what it refuses, each with the place of the first refusal of the walk.
-- t, u, i and r are distributed, l is a local table.
CREATE TABLE t (k bigint PRIMARY KEY, v bigint);
CREATE TABLE u (k bigint, w bigint, name text, PRIMARY KEY (k, w));
CREATE TABLE i (k bigint, n integer);
CREATE TABLE r (id bigint PRIMARY KEY, name text);
CREATE TABLE l (a bigint);
SELECT create_distributed_table('t', 'k');
SELECT create_distributed_table('u', 'k');
SELECT create_distributed_table('i', 'k');
SELECT create_distributed_table('r', 'id');

-- Statements of every form, over empty tables.
SELECT * FROM t;
SELECT t.*, u.name AS n FROM t JOIN u ON t.k = u.k;
SELECT k + 1 AS a FROM t GROUP BY k + 1 ORDER BY a;
SELECT k AS a, k AS a FROM t ORDER BY a;
SELECT v, count(*), sum(k) FROM t GROUP BY v HAVING count(*) > 1 ORDER BY 2 DESC, v LIMIT 3 OFFSET 1;
SELECT DISTINCT v FROM t ORDER BY v;
SELECT CASE WHEN k = 1 THEN 'a' ELSE NULL END FROM t;
SELECT coalesce(v, k, 0) FROM t;
SELECT -1 - -v FROM t;
SELECT v / -2, v % +3 FROM t;
SELECT v * v AS x FROM t;
SELECT sum(n * n) FROM i;
SELECT k FROM t WHERE k IN (SELECT k FROM u WHERE w NOT IN (SELECT id FROM r));
SELECT k FROM t WHERE v IS NOT NULL AND k BETWEEN 1 AND 9 OR NOT k <> 3;
WITH c AS (SELECT k FROM t), d AS (SELECT k FROM c) SELECT c.k FROM c, d WHERE c.k = d.k;
WITH t AS (SELECT name FROM u) SELECT name FROM t;
SELECT s.n FROM (SELECT v, count(*) AS n FROM t GROUP BY v) s LEFT JOIN r ON s.n = r.id;
EXPLAIN SELECT k FROM t;
COPY u (name, k) FROM STDIN WITH (FORMAT CSV, HEADER);
\.
SELECT citus_move_shard_placement(102008, 1, 2);
SELECT rebalance_table_shards();
SELECT k + v + 1 FROM t GROUP BY k + v;
SELECT k + v + (k + v) FROM t GROUP BY k + v;
SELECT k + v - k, k - 1 FROM t GROUP BY k, k + v;
SELECT v - 1 - 2 - 3 + 4 FROM t GROUP BY v - 1 - 2;
SELECT v - 1 - 2 - v FROM t GROUP BY v - 1, v, v - 1 - 2;
SELECT n * 2 * 3 % 5 FROM i GROUP BY n * 2;
SELECT (n * 2 / 3 + 1) * 4 FROM i GROUP BY n * 2;
SELECT k + v + count(*) - sum(k) FROM t GROUP BY k + v;
SELECT count(*) FROM t GROUP BY k + v HAVING k + v + 1 > 0 ORDER BY k + v - 1;

-- Names that are taken, and tables and columns that are not there, each told by its name.
SELECT 1 FROM t, t;
SELECT t.k FROM t JOIN u t ON 1 = 1;
WITH c AS (SELECT k FROM t), c AS (SELECT zz FROM t) SELECT k FROM c;
CREATE TABLE t (k BIGINT);
CREATE TABLE z (a BIGINT, a BIGINT);
SELECT k FROM (SELECT k FROM t) u, u;
SELECT k FROM nope;
SELECT zz FROM nope;
SELECT k FROM t, nope;
SELECT k FROM t WHERE k IN (SELECT k FROM nope);
SELECT k FROM (SELECT k FROM nope) s;
WITH c AS (SELECT k FROM c) SELECT k FROM c;
WITH c AS (SELECT k FROM d), d AS (SELECT k FROM t) SELECT k FROM c;
INSERT INTO nope VALUES (1);
UPDATE nope SET a = 1;
DELETE FROM nope;
COPY nope FROM STDIN;
\.
INSERT INTO t (zz) VALUES (1);
UPDATE t SET zz = yy;
COPY t (zz) FROM STDIN;
\.
CREATE TABLE z (a BIGINT, PRIMARY KEY (b));

-- Names and places that stand for nothing, each told where it stands.
SELECT zz FROM t;
SELECT k FROM t WHERE zz = 1;
SELECT x.k FROM t;
SELECT t.zz FROM t;
SELECT x.* FROM t;
SELECT k FROM t ORDER BY zz;
SELECT k FROM t ORDER BY 2;
SELECT k FROM t ORDER BY 0;
SELECT count(*) FROM t GROUP BY zz;
SELECT count(*) FROM t GROUP BY 9;
SELECT count(*) FROM t HAVING zz = 1;
SELECT k FROM t WHERE k IN (SELECT v FROM u);
SELECT k FROM (SELECT k FROM u) s WHERE w = 1;
WITH c AS (SELECT k FROM t) SELECT v FROM c;
SELECT t.k FROM t JOIN u ON t.k = r.id JOIN r ON r.id = u.k;
UPDATE t SET v = zz;
DELETE FROM t WHERE zz = 1;
INSERT INTO t VALUES (k, 1);
SET citus.foo TO 1;
SET foo.shard_count TO 1;
SELECT create_distributed_table('t', 'k', foo => 1);
SELECT rebalance_table_shards(rebalance_strategy => 'x');
SELECT get_rebalance_table_shards_plan(strategy => 'by_disk_size');

-- Names that stand for more than one thing, each told where it stands.
SELECT k FROM t, u;
SELECT t.k FROM t JOIN u ON k = 1;
SELECT k FROM (SELECT k, v AS k FROM t) s;
SELECT s.k FROM (SELECT k, v AS k FROM t) s;
SELECT k AS a, v AS a FROM t ORDER BY a;
SELECT k AS a, v AS a FROM t GROUP BY a;
INSERT INTO t (k, k) VALUES (1, 2);
UPDATE t SET v = 1, v = 2;
COPY t (k, k) FROM STDIN;
\.
CREATE TABLE z (a BIGINT, b BIGINT, PRIMARY KEY (a, a));

-- Types that do not fit, each told at its sign, word or operand.
SELECT k = 1 FROM t;
SELECT k FROM t WHERE k;
SELECT k FROM t WHERE NULL;
SELECT k FROM t WHERE k + v;
SELECT name + 1 FROM u;
SELECT 1 * name FROM u;
SELECT - name FROM u;
SELECT sum(name) FROM u;
SELECT min(k = 1) FROM t;
SELECT k FROM u WHERE name = 1;
SELECT k FROM u WHERE k IN (1, 'a');
SELECT k FROM u WHERE name BETWEEN 1 AND 2;
SELECT k FROM u WHERE name NOT BETWEEN 'a' AND 2;
SELECT k FROM u WHERE name NOT IN (1);
SELECT CASE WHEN k THEN 1 END FROM t;
SELECT CASE WHEN k = 1 THEN 1 ELSE 'a' END FROM t;
SELECT coalesce(k, 'a') FROM t;
SELECT k FROM t WHERE NOT k;
SELECT k FROM t WHERE k = 1 AND v;
SELECT k FROM t WHERE v OR k = 1;
SELECT k FROM t WHERE k = 1 AND k = 2 AND v AND k = 4;
SELECT k FROM t WHERE k = 1 AND k = 2 AND v;
SELECT k FROM t WHERE (k = 1) = (v = 1);
SELECT k FROM t WHERE (k = 1) IS NULL;
SELECT k FROM t ORDER BY k = 1;
SELECT count(*) FROM t GROUP BY k = 1;
SELECT count(*) FROM t HAVING count(*);
SELECT t.k FROM t JOIN u ON t.k;
SELECT k FROM t WHERE k IN (SELECT name FROM u);
UPDATE t SET v = 'a';
UPDATE t SET v = k = 1;
INSERT INTO t VALUES (1 = 1, 2);
SET citus.shard_count TO ON;
SET citus.enable_repartition_joins TO 1;

-- Key columns, subqueries, local tables and groups over joins where they may not stand.
UPDATE u SET w = 1;
DELETE FROM t WHERE k IN (SELECT k FROM u);
UPDATE t SET v = 1 WHERE k IN (SELECT k FROM u);
INSERT INTO t VALUES (1 IN (SELECT k FROM t), 2);
SELECT k IN (SELECT k FROM u) FROM t;
SELECT t.k FROM t JOIN u ON t.k IN (SELECT k FROM u);
SELECT k FROM t ORDER BY k IN (SELECT k FROM u);
SELECT count(*) FROM t GROUP BY k IN (SELECT k FROM u);
SELECT a FROM l;
SELECT k FROM t WHERE k IN (SELECT a FROM l);
INSERT INTO l VALUES (1);
UPDATE l SET a = 1;
DELETE FROM l;
COPY l FROM STDIN;
\.
SELECT count(*) FROM t, u;
SELECT t.k FROM t, u GROUP BY t.k;
SELECT t.k FROM t, u HAVING 1 = 1;
WITH j AS (SELECT t.k FROM t JOIN u ON t.k = u.k) SELECT count(*) FROM j;

-- Values that their columns cannot hold, told by row and column.
INSERT INTO t VALUES ('a', 1);
INSERT INTO t VALUES (1, 'a'), (1);
INSERT INTO t VALUES (1, 2), (9223372036854775807 + 1, 2);
INSERT INTO i VALUES (1, 2147483648);
INSERT INTO u VALUES (1, NULL, 'a');
INSERT INTO u (k, name) VALUES (1, 'a');
INSERT INTO u (name, k) VALUES (1, 'a');

-- Numbers that could need more than 127 bits.
SELECT v * v * v FROM t;
SELECT v * v + 1 FROM t;
SELECT v * v / 2 FROM t;
SELECT - (v * v) FROM t;
SELECT sum(v * v) FROM t;
UPDATE t SET v = v * v * v;
DELETE FROM t WHERE v * v * 2 = 1;

-- Divisors that are no number literal, or 0.
SELECT v / 0 FROM t;
SELECT v % 0 FROM t;
SELECT v / k FROM t;
SELECT v / (2) FROM t;
SELECT v / - -2 FROM t;
SELECT v / NULL FROM t;

-- Rows with another number of values than columns, and IN subqueries with another number of outputs than one.
INSERT INTO t VALUES (1);
INSERT INTO t VALUES (1, 2), (3);
INSERT INTO t (k) VALUES (1, 2);
SELECT k FROM t WHERE k IN (SELECT k, v FROM t);
SELECT k FROM t WHERE k NOT IN (SELECT * FROM t);

-- Longer sums and products of which no front is a key of GROUP BY, or where what stands behind the front does not fit it.
SELECT k + v + v FROM t GROUP BY k + v;
SELECT v + k + 1 FROM t GROUP BY k + v;
SELECT 1 + k + v FROM t GROUP BY k + v;
SELECT k + (v + 1) FROM t GROUP BY k + v;
SELECT k + v * 2 FROM t GROUP BY k + v;
SELECT v - 1 + 2 FROM t GROUP BY v - 2;
SELECT k + v FROM t GROUP BY k + v + 1;
SELECT n * 3 * 2 FROM i GROUP BY n * 2;
SELECT k + v + 'a' FROM t GROUP BY k + v;
SELECT v * v + 1 FROM t GROUP BY v * v;
SELECT v + 1, (v + 1) * 2 / 0 FROM t GROUP BY v + 1;

-- Columns outside GROUP BY, and aggregates where none may stand.
SELECT v, count(*) FROM t;
SELECT v FROM t GROUP BY k;
SELECT count(*) FROM t HAVING v = 1;
SELECT count(*) FROM t ORDER BY v;
SELECT k + v FROM t GROUP BY k;
SELECT * FROM t GROUP BY k;
SELECT k FROM t WHERE count(*) = 1;
SELECT sum(count(*)) FROM t;
SELECT count(*) FROM t GROUP BY 1;
SELECT count(*) FROM t GROUP BY count(*);
SELECT t.k FROM t JOIN u ON count(*) = 1;
SELECT DISTINCT k FROM t ORDER BY v;
UPDATE t SET v = count(*);
INSERT INTO t VALUES (count(*), 1);

-- The place of an expression of the wrong type: a chain of AND or OR at its middle word, a sum or product at its last sign.
SELECT k FROM t WHERE 1;
SELECT k FROM t WHERE (k);
SELECT k FROM t WHERE NULL;
SELECT k FROM t WHERE t.v;
SELECT k FROM t WHERE - k;
SELECT k FROM t WHERE k + v - 1 + 2;
SELECT k FROM t WHERE k * 2 * 3;
SELECT k FROM t WHERE k * 2 + v * 2;
SELECT k FROM t WHERE CASE WHEN k = 1 THEN 1 END;
SELECT k FROM t WHERE coalesce(k, 1);
SELECT k FROM t HAVING max(k);
SELECT k IN (1, 2) FROM t;
SELECT k NOT BETWEEN 1 AND 2 FROM t;
SELECT k IS NULL FROM t;
SELECT NOT k = 1 FROM t;
SELECT k = 1 OR k = 2 FROM t;
SELECT k = 1 OR k = 2 OR k = 3 FROM t;
SELECT k = 1 OR k = 2 OR k = 3 OR k = 4 FROM t;
SELECT k = 1 OR k = 2 OR k = 3 OR k = 4 OR k = 5 FROM t;
SELECT k = 1 OR k = 2 OR k = 3 OR k = 4 OR k = 5 OR k = 6 FROM t;
SELECT k = 1 AND k = 2 AND k = 3 FROM t;
SELECT k FROM t WHERE k IS NULL IS NOT NULL;

-- Statements with two faults or more: the first of the walk is told.
SELECT zz FROM t WHERE yy = 1;
SELECT zz FROM t GROUP BY yy;
SELECT zz FROM t HAVING yy = 1;
SELECT zz FROM t ORDER BY yy;
WITH c AS (SELECT zz FROM t) SELECT k FROM nope;
SELECT t.k FROM t JOIN u ON zz = 1 JOIN nope ON 1 = 1;
UPDATE t SET v = yy WHERE zz = 1;
INSERT INTO t VALUES (1, zz), (1);
SELECT zz + (v / 0) FROM t;
SELECT (v / 0) + zz FROM t;
SELECT sum(name) FROM t, u;
SELECT name / 0 FROM u;
SELECT v * v / 0 FROM t;
SELECT k FROM u WHERE sum(name) = 1;
SELECT v + zz FROM t GROUP BY k;
SELECT k FROM t WHERE k = 1 ORDER BY k IN (SELECT k, v FROM t);
SELECT k FROM u WHERE name IN (SELECT k, w FROM u);

-- Statements that are bound and run.
INSERT INTO u (w, k) VALUES (1 + 1, 5 * 5);
INSERT INTO t (v) VALUES (1);
CREATE TABLE z (a BIGINT, b INTEGER, c TEXT, PRIMARY KEY (a, b));
SET citus.shard_count TO 128;
SET citus.enable_repartition_joins TO on;
SELECT create_distributed_table('l', 'a', colocate_with => 't');
SELECT k, w, name FROM u WHERE k = 25;
