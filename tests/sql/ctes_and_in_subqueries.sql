-- Statements with CTEs and IN subqueries: each is computed once, and stands for its rows.
CREATE TABLE orders (customer bigint, id bigint, product bigint, price bigint, PRIMARY KEY (customer, id));
CREATE TABLE products (product bigint PRIMARY KEY, label text, weight integer);
CREATE TABLE colours (label text PRIMARY KEY, colour text);
SELECT create_distributed_table('orders', 'customer', shard_count => 4);
SELECT create_distributed_table('products', 'product', shard_count => 6, colocate_with => 'none');
SELECT create_reference_table('colours');
INSERT INTO orders VALUES (1, 1, 10, 100), (1, 2, 11, 40), (2, 1, 10, 90), (2, 2, NULL, 5), (3, 1, 12, 70), (4, 1, 11, NULL), (4, 2, 13, 15);
INSERT INTO products VALUES (10, 'rope', 3), (11, 'sail', 20), (12, 'lamp', NULL), (14, 'oar', 7);
INSERT INTO colours VALUES ('rope', 'white'), ('lamp', 'red');
-- CTEs
WITH sums AS (SELECT customer, sum(price) AS total FROM orders GROUP BY customer) SELECT customer, total FROM sums WHERE total > 50 ORDER BY customer;
WITH sums AS (SELECT customer, sum(price) AS total FROM orders GROUP BY customer) SELECT max(total) AS top, count(*) FROM sums;
WITH a AS (SELECT product, count(*) AS n FROM orders GROUP BY product), b AS (SELECT product, n FROM a WHERE n > 1) SELECT p.label, b.n FROM products p JOIN b ON p.product = b.product ORDER BY p.label;
WITH a AS (SELECT product AS p FROM orders) SELECT x.p FROM a x JOIN a y ON x.p = y.p WHERE x.p > 10 ORDER BY x.p;
WITH a AS (SELECT label FROM colours) SELECT p.label, a.label AS known FROM products p LEFT JOIN a ON p.label = a.label ORDER BY p.label;
WITH none AS (SELECT customer FROM orders WHERE price > 1000) SELECT count(*) FROM none;
WITH few AS (SELECT customer, id FROM orders ORDER BY customer DESC, id LIMIT 3) SELECT customer, id FROM few ORDER BY customer, id;
-- IN subqueries
SELECT customer, id FROM orders WHERE product IN (SELECT product FROM products WHERE weight > 2) ORDER BY customer, id;
SELECT customer, id FROM orders WHERE product NOT IN (SELECT product FROM products WHERE weight > 2) ORDER BY customer, id;
SELECT customer, id FROM orders WHERE product NOT IN (SELECT weight FROM products) ORDER BY customer, id; -- a NULL is among them
SELECT label FROM products WHERE label IN (SELECT label FROM colours WHERE colour IN (SELECT colour FROM colours)) ORDER BY label;
SELECT label FROM products WHERE product IN (SELECT product FROM orders WHERE customer = 1) OR weight IS NULL ORDER BY label;
SELECT customer, count(*) FROM orders GROUP BY customer HAVING count(*) IN (SELECT weight - 1 FROM products WHERE product = 10) ORDER BY customer;
SELECT s.customer FROM (SELECT customer, price FROM orders WHERE product IN (SELECT product FROM products)) s WHERE s.price > 60 ORDER BY s.customer;
WITH heavy AS (SELECT product FROM products WHERE weight > 5) SELECT customer, id FROM orders WHERE product IN (SELECT product FROM heavy) ORDER BY customer, id;
