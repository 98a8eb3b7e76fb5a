-- CTEs and IN subqueries over several shard groups: each is computed by its own tasks, and the query that reads its result by tasks again.
CREATE TABLE store (id bigint, name text, region bigint, PRIMARY KEY (id));
SELECT create_distributed_table('store', 'id', shard_count => 4);
CREATE TABLE sale (store bigint, item bigint, n integer);
SELECT create_distributed_table('sale', 'store', colocate_with => 'store');
CREATE TABLE item (id bigint, price bigint, kind text, PRIMARY KEY (id));
SELECT create_distributed_table('item', 'id', shard_count => 3);
CREATE TABLE region (id bigint, name text, PRIMARY KEY (id));
SELECT create_reference_table('region');
INSERT INTO store VALUES (1, 'north', 1), (2, 'south', 2), (3, 'east', 1), (4, 'west', NULL), (5, 'port', 2), (6, 'hill', 3);
INSERT INTO sale VALUES (1, 1, 2), (1, 2, 3), (1, 3, 1), (2, 1, 9), (2, 4, 4), (3, 2, 5), (3, NULL, 6), (4, 5, 1), (5, 1, NULL), (5, 3, 8), (5, 3, 2);
INSERT INTO item VALUES (1, 10, 'a'), (2, 25, 'b'), (3, NULL, 'a'), (4, 7, 'c'), (5, 100, 'b'), (6, 3, NULL);
INSERT INTO region VALUES (1, 'inland'), (2, 'coast'), (4, 'isles');
-- A CTE over a distributed table, joined with one, and with a reference table.
WITH t AS (SELECT store, sum(n) AS total FROM sale GROUP BY store) SELECT s.name, t.total FROM store s JOIN t ON s.id = t.store ORDER BY s.name;
WITH t AS (SELECT store, sum(n) AS total FROM sale GROUP BY store) SELECT s.name, t.total FROM store s LEFT JOIN t ON s.id = t.store ORDER BY s.name;
WITH t AS (SELECT item, count(*) AS c, sum(n) AS total FROM sale GROUP BY item) SELECT i.id, i.kind, t.total, t.c FROM item i JOIN t ON i.id = t.item ORDER BY i.id;
WITH t AS (SELECT region, count(*) AS c FROM store GROUP BY region) SELECT r.name, t.c FROM region r JOIN t ON r.id = t.region ORDER BY r.name;
WITH t AS (SELECT id, name FROM region WHERE id < 4) SELECT s.name, t.name AS region FROM store s JOIN t ON s.region = t.id ORDER BY s.name;
-- Used twice, and one over another.
WITH t AS (SELECT store, sum(n) AS total FROM sale GROUP BY store) SELECT a.store, b.store AS other FROM t a, t b, store s WHERE a.total < b.total AND s.id = a.store ORDER BY 1, 2;
WITH t AS (SELECT store, item, n FROM sale WHERE n > 1), u AS (SELECT store, max(n) AS most FROM t GROUP BY store) SELECT s.name, u.most FROM store s JOIN u ON u.store = s.id ORDER BY s.name;
WITH t AS (SELECT store FROM sale WHERE n > 4), u AS (SELECT s.id, s.name FROM store s WHERE s.id IN (SELECT store FROM t)) SELECT count(*) AS c, min(u.name) AS first FROM u;
WITH t AS (SELECT item, sum(n) AS total FROM sale GROUP BY item), u AS (SELECT i.id, i.kind, t.total FROM item i LEFT JOIN t ON t.item = i.id) SELECT id, total FROM u WHERE kind = 'a' OR kind IS NULL ORDER BY id;
-- IN subqueries in WHERE and HAVING, in one another, and in a subquery of a FROM.
SELECT name FROM store WHERE id IN (SELECT store FROM sale WHERE n > 4) ORDER BY name;
SELECT count(*) AS c FROM sale WHERE item IN (SELECT id FROM item WHERE price IN (SELECT max(price) FROM item GROUP BY kind));
SELECT store, sum(n) AS total FROM sale GROUP BY store HAVING sum(n) IN (SELECT max(n) + 1 FROM sale GROUP BY item) ORDER BY store;
SELECT q.store, s.name FROM (SELECT store, count(*) AS c FROM sale WHERE item IN (SELECT id FROM item WHERE price > 5) GROUP BY store) q JOIN store s ON s.id = q.store WHERE q.c > 1 ORDER BY 1;
SELECT name FROM store WHERE region IN (SELECT id FROM region) ORDER BY name;
SELECT DISTINCT kind FROM item WHERE id IN (SELECT item FROM sale) ORDER BY kind;
-- NOT IN, without NULLs and with one.
SELECT name FROM store WHERE id NOT IN (SELECT store FROM sale) ORDER BY name;
SELECT id FROM item WHERE id NOT IN (SELECT item FROM sale WHERE item IS NOT NULL) ORDER BY id;
SELECT id FROM item WHERE id NOT IN (SELECT item FROM sale) ORDER BY id;
SELECT name FROM store WHERE region NOT IN (SELECT id FROM region) ORDER BY name;
-- Cut in an order over all outputs.
WITH t AS (SELECT store, n FROM sale ORDER BY n DESC, store LIMIT 3) SELECT s.name, t.n FROM store s JOIN t ON s.id = t.store ORDER BY s.name, t.n;
SELECT name FROM store WHERE id IN (SELECT store FROM sale ORDER BY store DESC LIMIT 4 OFFSET 1) ORDER BY name;
-- One block isn't pushed down, and another is a join of shards that lie apart: the whole is computed in one place.
SELECT s.name FROM store s WHERE s.id IN (SELECT id FROM (SELECT id, count(*) AS c FROM item GROUP BY id) q WHERE c = 1) AND s.region IN (SELECT k.c FROM (SELECT kind, count(*) AS c FROM item GROUP BY kind) k) ORDER BY s.name;
SET citus.enable_repartition_joins TO on;
WITH t AS (SELECT a.store FROM sale a JOIN item i ON a.item = i.id WHERE i.price > 5) SELECT s.name FROM store s JOIN t ON t.store = s.id WHERE s.id = 2 OR s.id = 3 ORDER BY s.name;
-- Over reference tables and results alone.
WITH t AS (SELECT count(*) AS c FROM store), u AS (SELECT max(id) AS id FROM region) SELECT t.c, u.id FROM t, u;
WITH t AS (SELECT store, n FROM sale) SELECT t.store, count(*) AS c FROM t GROUP BY t.store ORDER BY t.store LIMIT 2;
