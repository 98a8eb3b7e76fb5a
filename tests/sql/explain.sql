-- EXPLAIN: planners, tasks, subplans, repartition, and how rows are combined.
CREATE TABLE orders (customer bigint, id bigint, product bigint, price bigint, PRIMARY KEY (customer, id));
CREATE TABLE customers (id bigint PRIMARY KEY, name text, region bigint);
CREATE TABLE products (product bigint PRIMARY KEY, label text, maker bigint);
CREATE TABLE colours (label text PRIMARY KEY, colour text);
SELECT create_distributed_table('orders', 'customer', shard_count => 4);
SELECT create_distributed_table('customers', 'id', colocate_with => 'orders');
SELECT create_distributed_table('products', 'product', shard_count => 3);
SELECT create_reference_table('colours');

-- EXPLAIN of queries with reference tables: their one shard is named by every task.
CREATE TABLE regions (region bigint PRIMARY KEY, name text);
SELECT create_reference_table('regions');

-- Reference tables alone: one task, on the first node.
EXPLAIN SELECT * FROM colours;
EXPLAIN SELECT colour FROM colours WHERE label = 'oar';
EXPLAIN SELECT h.colour, r.name FROM colours h JOIN regions r ON h.label = r.name;
EXPLAIN SELECT a.colour FROM colours a LEFT JOIN colours b ON a.label = b.colour;
EXPLAIN SELECT s.colour FROM (SELECT colour, count(*) AS n FROM colours GROUP BY colour) s;
EXPLAIN SELECT h.label FROM colours h WHERE h.colour IN (SELECT name FROM regions);
EXPLAIN WITH a AS (SELECT label FROM colours) SELECT a.label FROM a JOIN colours h ON a.label = h.label;
EXPLAIN WITH a AS (SELECT label FROM colours) SELECT label FROM a;

-- Beside distributed tables, in the order of FROM, and each as often as it stands there.
EXPLAIN SELECT p.product, h.colour FROM products p JOIN colours h ON p.label = h.label WHERE p.product = 3;
EXPLAIN SELECT p.product, h.colour FROM colours h JOIN products p ON p.label = h.label WHERE p.product = 2;
EXPLAIN SELECT p.product, h.colour FROM products p JOIN colours h ON p.label = h.label;
EXPLAIN SELECT c.name, r.name AS place, o.id FROM regions r JOIN customers c ON c.region = r.region JOIN orders o ON o.customer = c.id;
EXPLAIN SELECT a.id, b.id AS other FROM orders a JOIN orders b ON a.customer = b.customer CROSS JOIN regions r;
EXPLAIN SELECT p.product, h.colour FROM products p LEFT JOIN colours h ON p.label = h.label;
EXPLAIN SELECT p.product, a.colour, b.colour AS other FROM colours a, products p, colours b WHERE p.label = a.label AND a.colour = b.colour AND p.product IN (3, 5, 2);
EXPLAIN SELECT s.customer, r.name FROM (SELECT c.id AS customer, c.region FROM customers c JOIN regions q ON c.region = q.region) s JOIN regions r ON s.region = r.region;

-- No group is touched: a reference table is still read, and the distributed one isn't.
EXPLAIN SELECT p.product, h.colour FROM products p JOIN colours h ON p.label = h.label WHERE p.product = 1 AND p.product = 2;
EXPLAIN SELECT h.colour, p.product FROM colours h LEFT JOIN products p ON p.label = h.label AND p.product IN (NULL) WHERE p.product = NULL;

-- EXPLAIN of a query of each planner: it reads no rows, and says the same of empty tables.
-- The fast path: one table, with one value of its distribution column.
EXPLAIN SELECT * FROM orders WHERE customer = 4;
EXPLAIN SELECT id, price FROM orders o WHERE 3 = o.customer AND price > 10 ORDER BY price DESC LIMIT 2;
EXPLAIN SELECT product, count(*) FROM orders WHERE customer = 2 GROUP BY product;
EXPLAIN SELECT name FROM customers WHERE id IN (7) AND region = 1;
EXPLAIN SELECT name FROM customers WHERE id IN (1, 2, 3) AND id IN (3, 4);

-- The router: one group, with the subqueries of FROM inside.
EXPLAIN SELECT id FROM orders WHERE customer IN (1, 6, 9);
EXPLAIN SELECT o.id, c.name FROM orders o JOIN customers c ON o.customer = c.id WHERE c.id = 3;
EXPLAIN SELECT o.id, c.name FROM customers c LEFT JOIN orders o ON c.id = o.customer WHERE c.id = 5;
EXPLAIN SELECT s.customer, s.n FROM (SELECT customer, count(*) AS n FROM orders GROUP BY customer) s WHERE s.customer = 4;
EXPLAIN SELECT s.n FROM (SELECT count(*) AS n FROM orders WHERE customer = 8) s;
EXPLAIN SELECT a.id FROM orders a, orders b WHERE a.customer = 1 AND b.customer = 6;
EXPLAIN WITH c AS (SELECT id FROM customers WHERE id = 7) SELECT o.price FROM orders o JOIN c ON o.customer = c.id WHERE o.customer = 7;
EXPLAIN SELECT id FROM orders WHERE customer = 2 AND product IN (SELECT product FROM products WHERE product = 2);

-- Pushdown: the groups that are touched, with co-located tables joined.
EXPLAIN SELECT * FROM orders;
EXPLAIN SELECT label FROM products;
EXPLAIN SELECT id FROM orders WHERE customer > 2;
EXPLAIN SELECT id FROM orders WHERE customer = 1 OR id = 1;
EXPLAIN SELECT id FROM orders WHERE customer IN (4, 2);
EXPLAIN SELECT id FROM orders WHERE customer IN (7, 3, 4);
EXPLAIN SELECT label FROM products WHERE product IN (3, 2);
EXPLAIN SELECT o.id, c.name FROM orders o JOIN customers c ON o.customer = c.id;
EXPLAIN SELECT o.id, c.name FROM customers c LEFT JOIN orders o ON c.id = o.customer AND o.price > 5;
EXPLAIN SELECT o.id, c.name FROM customers c LEFT JOIN orders o ON c.id = o.customer WHERE c.id IN (2, 3);
EXPLAIN SELECT c.name, s.total FROM (SELECT customer, sum(price) AS total FROM orders GROUP BY customer) s JOIN customers c ON s.customer = c.id;
EXPLAIN SELECT s.id FROM (SELECT DISTINCT c.id FROM customers c, orders o WHERE c.id = o.customer) s JOIN orders p ON s.id = p.customer;

-- As many tasks as a table has shards by default.
CREATE TABLE visits (visitor bigint, place text);
SELECT create_distributed_table('visits', 'visitor');
EXPLAIN SELECT place, count(*) FROM visits GROUP BY place;
EXPLAIN SELECT place FROM visits WHERE visitor = 1 + 0;

-- The coordinator: nothing but intermediate results.
EXPLAIN WITH c AS (SELECT id FROM customers WHERE id = 1) SELECT id FROM c;
EXPLAIN SELECT s.n FROM (SELECT product, count(*) AS n FROM orders GROUP BY product) s WHERE s.n > 1;

-- What a query is refused for, its EXPLAIN is refused for.
EXPLAIN SELECT o.id FROM orders o JOIN products p ON o.product = p.product;
EXPLAIN SELECT o.id FROM orders o, products p;
EXPLAIN SELECT o.id FROM orders o LEFT JOIN products p ON o.product = p.product;
EXPLAIN SELECT s.id FROM (SELECT id FROM orders LIMIT 1) s;
EXPLAIN SELECT id FROM shops;
EXPLAIN SELECT weight FROM products;
EXPLAIN SELECT count(*) FROM orders o, customers c WHERE o.customer = c.id;

-- EXPLAIN says how the rows of tasks become those of the query.
-- At most one task: none.
EXPLAIN SELECT product, count(*) FROM orders WHERE customer = 1 GROUP BY product;
EXPLAIN SELECT DISTINCT product FROM orders WHERE customer IN (1, 9);
EXPLAIN SELECT colour, count(*) FROM colours GROUP BY colour;
EXPLAIN SELECT count(*) FROM orders WHERE customer = 1 AND customer = 2;

-- Rows: each task has all of a group, or of the rows that are alike.
EXPLAIN SELECT id FROM orders ORDER BY price LIMIT 3 OFFSET 1;
EXPLAIN SELECT customer, count(*) FROM orders GROUP BY customer;
EXPLAIN SELECT count(*), max(price) FROM orders GROUP BY product, customer HAVING count(*) > 1;
EXPLAIN SELECT customer AS product, count(*) FROM orders GROUP BY customer, product ORDER BY 2;
EXPLAIN SELECT sum(price) FROM orders WHERE customer IN (1, 2) GROUP BY customer;
EXPLAIN SELECT DISTINCT customer FROM orders;
EXPLAIN SELECT DISTINCT price, customer, product FROM orders ORDER BY 1;
EXPLAIN SELECT DISTINCT customer, count(*) FROM orders GROUP BY customer, product;
EXPLAIN SELECT DISTINCT o.id, c.id AS customer FROM orders o JOIN customers c ON o.customer = c.id;
EXPLAIN SELECT DISTINCT c.name, o.customer FROM orders o JOIN customers c ON o.customer = c.id;
EXPLAIN SELECT s.customer, max(s.n) FROM (SELECT customer, product, count(*) AS n FROM orders GROUP BY customer, product) s GROUP BY s.customer;

-- Group: a group, or rows that are alike, can come from several tasks.
EXPLAIN SELECT count(*) FROM orders;
EXPLAIN SELECT min(price) FROM orders HAVING count(*) > 2;
EXPLAIN SELECT product, sum(price) FROM orders GROUP BY product;
EXPLAIN SELECT count(*) FROM orders GROUP BY customer + 0;
EXPLAIN SELECT price FROM orders WHERE customer IN (2, 3) GROUP BY price;
EXPLAIN SELECT DISTINCT product FROM orders;
EXPLAIN SELECT DISTINCT customer + 1 AS next FROM orders;
EXPLAIN SELECT DISTINCT product, count(*) FROM orders GROUP BY product;
EXPLAIN SELECT DISTINCT count(*) FROM orders GROUP BY customer;
EXPLAIN SELECT DISTINCT o.id, c.name FROM orders o JOIN customers c ON o.customer = c.id;
EXPLAIN SELECT s.product, max(s.n) FROM (SELECT customer, product, count(*) AS n FROM orders GROUP BY customer, product) s GROUP BY s.product;
EXPLAIN SELECT name, count(*) FROM customers GROUP BY name ORDER BY name;

-- EXPLAIN of queries with subplans, which are numbered in the order in which they are shown.
-- CTEs in their order, whether they are used or not.
EXPLAIN WITH a AS (SELECT customer, count(*) AS n FROM orders GROUP BY customer) SELECT c.name, a.n FROM customers c JOIN a ON c.id = a.customer;
EXPLAIN WITH a AS (SELECT product, count(*) AS n FROM orders GROUP BY product), b AS (SELECT product, n FROM a WHERE n > 1), c AS (SELECT id FROM customers WHERE id = 2) SELECT p.label, b.n FROM products p JOIN b ON p.product = b.product;
EXPLAIN WITH a AS (SELECT product FROM products WHERE product = 4) SELECT x.product FROM a x JOIN a y ON x.product = y.product;

-- Subqueries of FROM that can't be pushed down, from left to right.
EXPLAIN SELECT s.product, t.top FROM (SELECT product, count(*) AS n FROM orders GROUP BY product) s, (SELECT max(price) AS top FROM orders WHERE customer = 3) t;
EXPLAIN SELECT c.name, s.id FROM (SELECT id, customer FROM orders ORDER BY id, customer LIMIT 5) s JOIN customers c ON s.customer = c.id;
EXPLAIN SELECT c.name, s.customer FROM (SELECT customer, id FROM orders) s JOIN customers c ON s.customer = c.id JOIN (SELECT product FROM orders) t ON t.product = c.region;

-- IN subqueries in the order of the text.
EXPLAIN SELECT id FROM orders WHERE product IN (SELECT product FROM products) AND customer NOT IN (SELECT id FROM customers WHERE id = 6);
EXPLAIN SELECT customer, count(*) FROM orders WHERE product IN (SELECT product FROM products WHERE product = 5) GROUP BY customer HAVING count(*) IN (SELECT region FROM customers);

-- Subplans of subplans: each is shown behind its own line, with the subplans in it.
EXPLAIN SELECT label FROM products WHERE product IN (SELECT product FROM orders WHERE customer IN (SELECT id FROM customers WHERE region = 1));
EXPLAIN WITH a AS (SELECT id FROM orders WHERE product IN (SELECT product FROM products WHERE maker = 1)), b AS (SELECT id FROM customers) SELECT c.name FROM customers c JOIN a ON c.id = a.id WHERE c.region IN (SELECT id FROM b);
EXPLAIN SELECT s.product FROM (SELECT product, sum(price) AS total FROM orders WHERE customer = 7 OR id IN (SELECT region FROM customers WHERE id = 9) GROUP BY product) s WHERE s.total IN (SELECT maker FROM products);
EXPLAIN SELECT t.n FROM (SELECT s.n, count(*) AS times FROM (SELECT product, count(*) AS n FROM orders GROUP BY product) s GROUP BY s.n) t WHERE t.times > 1;
EXPLAIN WITH a AS (SELECT s.n FROM (SELECT count(*) AS n FROM orders WHERE id IN (SELECT region FROM customers WHERE id IN (SELECT product FROM products WHERE product = 6))) s), b AS (SELECT n FROM a) SELECT n FROM b;

-- An IN subquery of a subquery that stays is a subplan of the block in which it stays.
EXPLAIN SELECT s.id FROM (SELECT customer, id FROM orders WHERE product IN (SELECT product FROM products)) s WHERE s.id > 1;

-- Numbers of two digits, and none that is given twice.
EXPLAIN WITH a AS (SELECT id FROM customers WHERE id IN (SELECT product FROM products WHERE product IN (SELECT customer FROM orders WHERE customer = 1))), b AS (SELECT id FROM customers WHERE id IN (SELECT product FROM products WHERE product IN (SELECT customer FROM orders WHERE customer = 2))), c AS (SELECT id FROM customers WHERE id IN (SELECT product FROM products WHERE product IN (SELECT customer FROM orders WHERE customer = 3))) SELECT id FROM customers WHERE region IN (SELECT product FROM products WHERE product IN (SELECT customer FROM orders WHERE customer = 4)) AND id IN (SELECT id FROM a) AND id NOT IN (SELECT id FROM b);

-- CTEs come before the subqueries of FROM, and these before IN subqueries.
EXPLAIN WITH a AS (SELECT id FROM customers WHERE id = 2) SELECT s.product FROM (SELECT product, count(*) AS n FROM orders GROUP BY product) s JOIN a ON s.n = a.id WHERE s.product IN (SELECT product FROM products WHERE product = 3);

-- A right side of a LEFT JOIN whose left side has no distributed table.
EXPLAIN SELECT h.colour, p.product FROM colours h LEFT JOIN products p ON h.label = p.label;
EXPLAIN SELECT h.colour, p.product FROM colours h LEFT JOIN products p ON h.label = p.label AND p.product IN (2, 3) WHERE p.product IN (3, 5, 2);
EXPLAIN SELECT h.colour, s.customer FROM colours h LEFT JOIN (SELECT customer, count(*) AS n FROM orders GROUP BY customer) s ON s.n > 2;
EXPLAIN WITH a AS (SELECT id FROM customers WHERE id = 4) SELECT a.id, o.price FROM a LEFT JOIN orders o ON a.id = o.customer;
EXPLAIN WITH a AS (SELECT id FROM customers WHERE id = 4) SELECT a.id, o.price FROM orders o LEFT JOIN a ON a.id = o.customer;

-- EXPLAIN of queries without a task, and of those with a part that has none.
-- No value of the distribution column is left.
EXPLAIN SELECT id FROM orders WHERE customer = 1 AND customer = 2;
EXPLAIN SELECT count(*), sum(price) FROM orders WHERE customer = NULL;
EXPLAIN SELECT DISTINCT product FROM orders WHERE customer IN (NULL) AND id = 3;
EXPLAIN SELECT o.id, c.name FROM orders o JOIN customers c ON o.customer = c.id WHERE o.customer = 3 AND c.id = 4;
EXPLAIN SELECT s.n FROM (SELECT customer, count(*) AS n FROM orders GROUP BY customer) s WHERE s.customer IN (1, 2) AND s.customer = 5;

-- A right side without a value stays in the tasks of its left side.
EXPLAIN SELECT o.id, c.name FROM customers c LEFT JOIN orders o ON o.customer = c.id WHERE o.customer = NULL;

-- Intermediate results alone.
EXPLAIN WITH a AS (SELECT id FROM orders WHERE customer = NULL) SELECT id FROM a WHERE id IN (SELECT id FROM customers WHERE id = 1 AND id = 3);
EXPLAIN WITH a AS (SELECT id FROM customers) SELECT count(*) FROM a;
EXPLAIN WITH a AS (SELECT id FROM customers) SELECT x.id FROM a x LEFT JOIN a y ON x.id = y.id ORDER BY x.id LIMIT 3;

-- A right side of a LEFT JOIN that is planned by itself, and reads nothing.
SET citus.enable_repartition_joins TO on;
EXPLAIN SELECT o.id, p.label, c.name FROM orders o JOIN products p ON o.product = p.product LEFT JOIN customers c ON c.id = o.customer WHERE o.customer = NULL;
SET citus.enable_repartition_joins TO off;

-- EXPLAIN of joins of tables that are not co-located.
CREATE TABLE makers (maker bigint PRIMARY KEY, place text);
SELECT create_distributed_table('makers', 'maker', shard_count => 5);
CREATE TABLE notes (id bigint, customer bigint, note text);
SELECT create_distributed_table('notes', 'id', shard_count => 1);
EXPLAIN SELECT o.id, p.label FROM orders o JOIN products p ON o.product = p.product;
SET citus.enable_repartition_joins TO on;

-- One side alone: the second by the ranges of the first, or what is joined by those of the second.
EXPLAIN SELECT o.id, p.label FROM orders o JOIN products p ON o.customer = p.maker;
EXPLAIN SELECT o.id, p.label FROM orders o JOIN products p ON o.product = p.product;
EXPLAIN SELECT o.id, p.label FROM products p JOIN orders o ON o.product = p.product;
EXPLAIN SELECT o.id, p.label FROM products p, orders o WHERE o.customer = p.maker;
EXPLAIN SELECT o.id, p.label FROM orders o JOIN products p ON o.customer = p.product;

-- Both sides.
EXPLAIN SELECT o.id, p.label FROM orders o JOIN products p ON o.price = p.maker;
EXPLAIN SELECT o.id, p.label FROM products p JOIN orders o ON o.price = p.maker;
EXPLAIN SELECT a.id, b.id AS other FROM orders a JOIN orders b ON a.product = b.product;

-- Where one class has more than one column, and where several are shared.
EXPLAIN SELECT o.id, p.label FROM orders o, products p WHERE o.price = p.maker AND o.price = p.product;
EXPLAIN SELECT o.id, p.label FROM orders o, products p WHERE o.price = p.maker AND o.customer = p.product;
EXPLAIN SELECT o.id, p.label FROM orders o, products p WHERE o.price = p.maker AND o.product = p.product AND o.customer > 3;

-- Several steps.
EXPLAIN SELECT o.id, m.place FROM orders o JOIN products p ON o.product = p.product JOIN makers m ON p.maker = m.maker;
EXPLAIN SELECT o.id, m.place FROM orders o JOIN products p ON o.price = p.maker JOIN makers m ON p.product = m.maker;
EXPLAIN SELECT o.id, n.note FROM orders o JOIN products p ON o.price = p.maker JOIN notes n ON n.customer = p.maker;
EXPLAIN SELECT o.id, n.note FROM orders o JOIN products p ON o.product = p.product JOIN notes n ON n.customer = o.id;
EXPLAIN SELECT o.id, m.place FROM orders o, makers m, products p WHERE o.product = p.product AND p.maker = m.maker;
EXPLAIN SELECT m.place, o.id FROM makers m, orders o, products p WHERE o.product = p.product AND p.maker = m.maker;

-- Co-located tables are joined without a step.
EXPLAIN SELECT o.id, c.name, p.label FROM orders o JOIN products p ON o.product = p.product JOIN customers c ON o.customer = c.id;
EXPLAIN SELECT s.n, p.label FROM (SELECT customer, count(*) AS n FROM orders GROUP BY customer) s JOIN products p ON s.customer = p.maker;
EXPLAIN SELECT o.id, p.label, h.colour FROM orders o JOIN products p ON o.product = p.product JOIN colours h ON p.label = h.label;

-- Conditions leave the buckets as they are, as long as more than one group is read.
EXPLAIN SELECT o.id, p.label FROM orders o JOIN products p ON o.product = p.product WHERE o.customer = 2;
EXPLAIN SELECT o.id, p.label FROM orders o JOIN products p ON o.customer = p.maker WHERE p.product = 1;

-- One bucket.
EXPLAIN SELECT p.label, n.note FROM products p JOIN notes n ON p.maker = n.id;
EXPLAIN SELECT n.note, p.label FROM notes n JOIN products p ON p.maker = n.id;
EXPLAIN SELECT n.note, p.label FROM notes n JOIN products p ON p.maker = n.customer;

-- How the rows are parted decides whether DISTINCT is computed again.
EXPLAIN SELECT DISTINCT p.label FROM orders o JOIN products p ON o.product = p.product;
EXPLAIN SELECT DISTINCT p.label, o.product FROM orders o JOIN products p ON o.product = p.product;
EXPLAIN SELECT DISTINCT o.customer FROM orders o JOIN products p ON o.product = p.product;
EXPLAIN SELECT DISTINCT p.maker FROM orders o JOIN products p ON o.price = p.maker;
EXPLAIN SELECT DISTINCT o.customer, p.product FROM orders o JOIN products p ON o.price = p.maker;
EXPLAIN SELECT DISTINCT p.maker, p.label FROM orders o JOIN products p ON o.product = p.product JOIN makers m ON p.maker = m.maker;

-- The right side of a LEFT JOIN is planned by itself.
EXPLAIN SELECT o.id, p.label, c.name FROM orders o JOIN products p ON o.product = p.product LEFT JOIN customers c ON c.id = o.customer;
EXPLAIN SELECT o.id, p.label, c.name FROM orders o JOIN products p ON o.product = p.product LEFT JOIN customers c ON c.id = o.customer WHERE o.customer = 4;
EXPLAIN SELECT o.id, p.label, c.name FROM orders o JOIN products p ON o.product = p.product LEFT JOIN customers c ON c.id = o.customer WHERE o.customer IN (3, 4);
EXPLAIN SELECT o.id, p.label, c.name FROM orders o JOIN products p ON o.product = p.product LEFT JOIN customers c ON c.id = o.customer WHERE o.customer IN (3, 8);
SET citus.enable_repartition_joins TO off;
EXPLAIN SELECT o.id, p.label FROM orders o JOIN products p ON o.product = p.product;
