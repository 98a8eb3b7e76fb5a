-- The lists of docs/FROM_POSTGRESQL.md, in their order: what is left out is refused, and what is to be written instead runs.
CREATE TABLE t (k bigint PRIMARY KEY, v integer, s text);
SELECT create_distributed_table('t', 'k', shard_count => 4);
CREATE TABLE u (k bigint, id bigint, w bigint, PRIMARY KEY (k, id));
SELECT create_distributed_table('u', 'k', colocate_with => 't');
CREATE TABLE r (id bigint PRIMARY KEY, name text);
SELECT create_reference_table('r');
CREATE TABLE l (a bigint PRIMARY KEY, b bigint);
INSERT INTO t VALUES (1, 10, 'a'), (2, 20, 'B'), (3, NULL, 'c');
INSERT INTO u VALUES (1, 1, 5), (1, 2, 6), (4, 1, 7);
INSERT INTO r VALUES (10, 'ten'), (30, 'thirty');

-- Tables and types.
CREATE TABLE x (a numeric(10, 2));
CREATE TABLE x (a real);
CREATE TABLE x (a double precision);
CREATE TABLE x (a date);
CREATE TABLE x (a timestamp);
CREATE TABLE x (a boolean);
CREATE TABLE x (a smallint);
CREATE TABLE x (a int8);
CREATE TABLE x (a varchar(10));
CREATE TABLE x (a uuid);
CREATE TABLE x (a jsonb);
CREATE TABLE x (a bigint[]);
CREATE TABLE x (a serial);
CREATE TABLE x (a bigint GENERATED ALWAYS AS IDENTITY);
CREATE SEQUENCE x;
CREATE TABLE x (a bigint NOT NULL);
CREATE TABLE x (a bigint DEFAULT 0);
CREATE TABLE x (a bigint CHECK (a > 0));
CREATE TABLE x (a bigint UNIQUE);
CREATE TABLE x (a bigint REFERENCES t);
CREATE TABLE x (a bigint, CONSTRAINT c PRIMARY KEY (a));
CREATE TABLE IF NOT EXISTS x (a bigint);
CREATE TEMPORARY TABLE x (a bigint);
CREATE TABLE x AS SELECT k FROM t;
CREATE TABLE public.x (a bigint);
CREATE TABLE "X" (a bigint);
CREATE TABLE x (key bigint);
CREATE TABLE x (values bigint);
SELECT k AS key, k AS count, k AS min, k AS max, k AS sum, k AS end FROM t WHERE k = 1;
CREATE INDEX i ON t (v);
CREATE VIEW x AS SELECT k FROM t;
CREATE FUNCTION f() RETURNS bigint AS 'x';
CREATE SCHEMA x;
CREATE TRIGGER x BEFORE INSERT ON t;
ALTER TABLE t ADD COLUMN z bigint;
DROP TABLE t;
TRUNCATE t;

-- Values and expressions.
SELECT avg(v) FROM t;
SELECT sum(v), count(v) FROM t;
SELECT v / k FROM t;
SELECT v % k FROM t;
SELECT sum(v) / count(v) FROM t;
SELECT v * 1.5 FROM t;
SELECT k FROM t WHERE k = 1e3;
SELECT v * 3 / 2 AS half_more FROM t WHERE k = 1;
SELECT s FROM t WHERE s LIKE 'a%';
SELECT s FROM t WHERE s >= 'a' AND s < 'b';
SELECT s FROM t WHERE s ILIKE 'a%';
SELECT s FROM t WHERE s SIMILAR TO 'a%';
SELECT s FROM t WHERE s ~ 'a';
SELECT s || 'x' FROM t;
SELECT v::bigint FROM t;
SELECT CAST(v AS bigint) FROM t;
SELECT k FROM t WHERE k = '1';
INSERT INTO t VALUES ('5', 1, 'a');
SELECT v ^ 2 FROM t;
SELECT k FROM t WHERE k & 1 = 1;
SELECT k # 1 FROM t;
SELECT k << 1 FROM t;
SELECT abs(v) FROM t;
SELECT CASE WHEN v < 0 THEN -v ELSE v END AS size FROM t WHERE k = 1;
SELECT greatest(v, k) FROM t;
SELECT CASE WHEN v > k THEN v ELSE k END AS most FROM t WHERE k = 1;
SELECT nullif(v, 10) FROM t;
SELECT CASE WHEN v = 10 THEN NULL ELSE v END AS other FROM t WHERE k = 1;
SELECT lower(s) FROM t;
SELECT k, now() FROM t;
SELECT CASE k WHEN 1 THEN 'one' END FROM t;
SELECT CASE WHEN k = 1 THEN 'one' END AS name FROM t WHERE k = 1;
SELECT k FROM t WHERE true;
SELECT current_date FROM t;
SELECT k FROM t WHERE 1 = 1 ORDER BY k;
SELECT k FROM t WHERE NULL;
SELECT k FROM t WHERE 1 = 0;
SELECT k FROM t WHERE v IS DISTINCT FROM 10;
SELECT k FROM t WHERE v <> 10 OR v IS NULL ORDER BY k;
SELECT k FROM t WHERE v IS TRUE;
SELECT k FROM t WHERE v IS UNKNOWN;
SELECT k FROM t WHERE v ISNULL;
SELECT k FROM t WHERE v IS NULL;
SELECT k > 1 FROM t;
SELECT CASE WHEN k > 1 THEN 1 ELSE 0 END FROM t ORDER BY k;
SELECT k FROM t WHERE (k, v) = (1, 10);
SELECT k FROM t WHERE k = 1 AND v = 10;
SELECT k FROM t WHERE v BETWEEN SYMMETRIC 20 AND 1;
SELECT k /* c */ FROM t;
SELECT k FROM t WHERE s = $$a$$;
SELECT k FROM t WHERE k = $1;
SELECT k FROM t WHERE s = E'a';
SELECT k FROM t WHERE k = -9223372036854775808;
SELECT -9223372036854775807 - 1 AS least FROM t WHERE k = 1;

-- Queries.
SELECT k a FROM t;
SELECT x.k AS a FROM t x WHERE k = 1;
SELECT t.s, sum(w) FROM t JOIN u ON t.k = u.k GROUP BY t.s;
SELECT count(*) FROM t JOIN u ON t.k = u.k;
SELECT max(v) FROM (SELECT t.v FROM t JOIN u ON t.k = u.k) j;
SELECT t.s, n.total FROM t JOIN (SELECT k, sum(w) AS total FROM u GROUP BY k) n ON t.k = n.k;
SELECT count(*) FROM t WHERE k IN (SELECT k FROM u);
SELECT count(DISTINCT v) FROM t;
SELECT count(v) FROM (SELECT DISTINCT v FROM t) d;
SELECT count(*) FILTER (WHERE v > 10) FROM t;
SELECT count(CASE WHEN v > 10 THEN 1 END) FROM t;
SELECT string_agg(s, ',') FROM t;
SELECT k, s, count(*) FROM t GROUP BY k;
SELECT k, s, count(*) FROM t GROUP BY k, s ORDER BY k;
SELECT k, count(*) FROM t GROUP BY ROLLUP (k);
SELECT k, count(*) FROM t GROUP BY GROUPING SETS ((k), ());
SELECT DISTINCT ON (v) k FROM t;
SELECT v, min(k) FROM t GROUP BY v ORDER BY v;
SELECT k FROM t UNION SELECT k FROM u;
SELECT k FROM t INTERSECT SELECT k FROM u;
SELECT k FROM t EXCEPT SELECT k FROM u;
SELECT k FROM t WHERE k NOT IN (SELECT k FROM u) ORDER BY k;
SELECT k FROM t WHERE EXISTS (SELECT k FROM u);
SELECT k FROM t WHERE k IN (SELECT k FROM u);
SELECT k FROM t WHERE k IN (SELECT k FROM u WHERE u.w = t.v);
SELECT t.k FROM t JOIN (SELECT k, max(w) AS most FROM u GROUP BY k) x ON t.k = x.k WHERE t.v > x.most;
SELECT k FROM t WHERE v = (SELECT max(v) FROM t);
SELECT k FROM t WHERE v IN (SELECT max(v) FROM t);
SELECT k, (SELECT max(w) FROM u) FROM t;
SELECT t.k, x.most FROM t CROSS JOIN (SELECT max(w) AS most FROM u) x ORDER BY t.k;
SELECT k FROM t WHERE k = ANY (SELECT k FROM u);
SELECT k FROM t WHERE v > ALL (SELECT w FROM u);
SELECT k IN (SELECT k FROM u) FROM t;
SELECT s, w FROM t RIGHT OUTER JOIN u ON t.k = u.k;
SELECT s, name FROM t FULL OUTER JOIN r ON v = id;
SELECT s, w FROM u LEFT JOIN t ON t.k = u.k ORDER BY w;
SELECT t.k FROM t JOIN u USING (k);
SELECT t.k FROM t JOIN (u JOIN r ON u.id = r.id) ON t.k = u.k;
SELECT t.k FROM t JOIN LATERAL (SELECT k FROM u) x ON t.k = x.k;
SELECT k, sum(v) OVER (ORDER BY k) FROM t;
SELECT k, row_number() OVER () FROM t;
WITH RECURSIVE c AS (SELECT k FROM t) SELECT k FROM c;
SELECT k FROM (WITH c AS (SELECT k FROM t) SELECT k FROM c) x;
WITH d AS (DELETE FROM t) SELECT k FROM u;
WITH c AS MATERIALIZED (SELECT k FROM t) SELECT k FROM c;
WITH c (a) AS (SELECT k FROM t) SELECT a FROM c;
SELECT x.a FROM t AS x (a, b, c);
WITH c AS (SELECT k AS a FROM t) SELECT a FROM c ORDER BY a;
SELECT k FROM (SELECT k FROM t);
SELECT 1;
VALUES (1, 2);
TABLE t;
SELECT * FROM generate_series(1, 3);
SELECT v FROM t ORDER BY v NULLS FIRST;
SELECT v FROM t ORDER BY CASE WHEN v IS NULL THEN 0 ELSE 1 END, v;
SELECT k FROM t ORDER BY k FETCH FIRST 1 ROW ONLY;
SELECT k FROM t ORDER BY k LIMIT ALL;
SELECT k FROM t ORDER BY k LIMIT 1 + 1;
SELECT k FROM t ORDER BY k OFFSET 1 LIMIT 1;
SELECT k FROM t ORDER BY k LIMIT 1 OFFSET 1;
SELECT k FROM t FOR UPDATE;
SELECT k FROM t TABLESAMPLE SYSTEM (10);
SELECT k INTO x FROM t;
SELECT ctid FROM t;
SELECT * FROM pg_class;
SELECT * FROM citus_shards;

-- Writes and data.
INSERT INTO t SELECT k, id, NULL FROM u;
INSERT INTO t DEFAULT VALUES;
INSERT INTO t VALUES (5, DEFAULT, 'a');
INSERT INTO t VALUES (5, 1, 'a') ON CONFLICT DO NOTHING;
INSERT INTO t VALUES (5, 1, 'a') RETURNING k;
UPDATE t SET v = u.w FROM u WHERE t.k = u.k;
DELETE FROM t USING u WHERE t.k = u.k;
MERGE INTO t USING u ON t.k = u.k;
UPDATE t SET (v, s) = (1, 'a');
UPDATE t AS x SET v = 1;
DELETE FROM t WHERE k IN (SELECT k FROM u);
UPDATE u SET id = 7 WHERE k = 1;
SELECT a FROM l;
INSERT INTO l VALUES (1, 2);
COPY t TO STDOUT;
\.
COPY t FROM 'file.csv';
\.
COPY t FROM STDIN CSV HEADER;
\.
COPY t FROM STDIN (FORMAT CSV, HEADER true);
\.
COPY t FROM STDIN (DELIMITER ',');
\.
COPY t FROM STDIN (HEADER);
\.
COPY t FROM STDIN;
5	1	\101
\.

-- Transactions, sessions and administration.
BEGIN;
COMMIT;
ROLLBACK;
SAVEPOINT x;
LOCK TABLE t;
PREPARE p AS SELECT k FROM t;
DECLARE c CURSOR FOR SELECT k FROM t;
LISTEN x;
DO $$ BEGIN END $$;
CALL f();
GRANT SELECT ON t TO x;
VACUUM;
ANALYZE t;
SHOW citus.shard_count;
RESET citus.shard_count;
SET LOCAL citus.shard_count TO 8;
SET search_path TO x;
SET citus.shard_replication_factor TO 2;
EXPLAIN ANALYZE SELECT k FROM t;
EXPLAIN (COSTS OFF) SELECT k FROM t;
EXPLAIN UPDATE t SET v = 1;
CREATE EXTENSION citus;
SELECT citus_add_node('localhost', 5432);
SELECT citus_drain_node('localhost', 5432);
SELECT undistribute_table('t');
SELECT citus_rebalance_start();
SELECT create_distributed_table('l', 'a', distribution_type => 'append');

-- Other.
SELECT citus_move_shard_placement(102008, 'localhost', 5432, 'localhost', 5433);
SELECT citus_move_shard_placement(102008, 1, 2);
SELECT rebalance_table_shards('t');
SELECT rebalance_table_shards();
SELECT * FROM get_rebalance_table_shards_plan();
SELECT get_rebalance_table_shards_plan();
SELECT create_distributed_table('l', 'a', 'hash');
SELECT create_distributed_table('l', 'a', colocate_with := 't');
SELECT create_distributed_table('L', 'a');
SELECT create_distributed_table('public.l', 'a');
SELECT v + 2147483647 AS more FROM t WHERE k = 1;
SELECT k * k * k FROM t WHERE k = 1;
UPDATE t SET v = v + 2147483647;
SELECT CASE WHEN v = 0 THEN 0 ELSE 1 / 0 END FROM t;
SELECT k FROM (SELECT k, s FROM t ORDER BY k LIMIT 1) x;
SELECT k FROM (SELECT k, s FROM t ORDER BY k, s LIMIT 1) x;
UPDATE t SET k = 9 WHERE k = 1;
INSERT INTO t (v) VALUES (1);

-- Silently other.
SELECT s, name FROM t RIGHT JOIN r ON v = id;
SELECT s, name FROM t FULL JOIN r ON v = id;
SELECT s, name FROM t NATURAL JOIN r ON v = id;
SELECT s, w FROM t RIGHT JOIN u ON t.k = u.k;
SELECT s, w FROM t x RIGHT JOIN u ON x.k = u.k;
CREATE TABLE c (k bigint PRIMARY KEY, s text);
SELECT create_reference_table('c');
COPY c FROM STDIN (FORMAT CSV);
1,""
2,
3,a"b

4,"open
5,e
\.
SELECT k, s FROM c ORDER BY k;
SELECT s FROM t ORDER BY s;
SELECT k FROM t WINDOW ORDER BY window.k;
COPY c FROM 'file.csv';
SELECT k FROM t;
