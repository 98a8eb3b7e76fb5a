-- Queries over all shards of a table: aggregates, groups, order and cut; joins and subqueries of tables that lie beside each other.
CREATE TABLE events (customer bigint, minute integer, page text, ms bigint, PRIMARY KEY (customer, minute, page));
CREATE TABLE customers (customer bigint PRIMARY KEY, name text, country text);
CREATE TABLE countries (code text PRIMARY KEY, title text);
SELECT create_distributed_table('events', 'customer', shard_count => 8);
SELECT create_distributed_table('customers', 'customer', colocate_with => 'events');
SELECT create_reference_table('countries');
INSERT INTO countries VALUES ('de', 'Germany'), ('dk', 'Denmark'), ('nl', 'Netherlands');
INSERT INTO customers VALUES (1, 'Anchor', 'de'), (2, 'Buoy', 'dk'), (3, 'Cable', 'de'), (4, 'Dinghy', NULL), (5, 'Engine', 'nl');
INSERT INTO events VALUES (1, 0, 'home', 12), (1, 0, 'cart', 48), (1, 1, 'home', 9), (2, 0, 'home', 31), (2, 2, 'help', NULL), (3, 1, 'home', 7),
  (3, 1, 'cart', 90), (3, 2, 'cart', 55), (5, 0, 'help', 20), (5, 2, 'home', 15);
-- one table
SELECT count(*), count(ms), sum(ms), min(ms), max(ms) FROM events;
SELECT count(*), sum(ms) FROM events WHERE ms > 1000;
SELECT minute, count(*) AS hits, sum(ms) AS total FROM events GROUP BY minute ORDER BY minute;
SELECT page, count(*), max(ms) FROM events GROUP BY page HAVING count(*) > 2 ORDER BY 2 DESC, 1;
SELECT customer, count(*) FROM events GROUP BY customer ORDER BY customer;
SELECT page, minute, sum(ms) FROM events WHERE ms IS NOT NULL GROUP BY page, minute ORDER BY sum(ms) DESC, page, minute LIMIT 4 OFFSET 1;
SELECT DISTINCT page FROM events ORDER BY page;
SELECT DISTINCT minute / 2 AS half, page FROM events ORDER BY 1, 2;
SELECT customer, ms FROM events ORDER BY ms DESC, customer LIMIT 3;
SELECT customer, ms FROM events ORDER BY ms, customer OFFSET 7;
SELECT customer, page FROM events WHERE customer = 1 OR ms = 55 ORDER BY customer, page;
SELECT customer, page FROM events WHERE customer IN (2, 5) AND minute < 2 ORDER BY customer, page;
SELECT page, CASE WHEN ms > 50 THEN 'slow' ELSE 'fast' END AS pace, count(*) FROM events GROUP BY page, CASE WHEN ms > 50 THEN 'slow' ELSE 'fast' END ORDER BY 1, 2;
-- joins beside each other
SELECT c.name, e.page, e.ms FROM customers c JOIN events e ON c.customer = e.customer WHERE e.minute = 1 ORDER BY c.name, e.page;
SELECT c.name, e.page FROM customers c LEFT JOIN events e ON c.customer = e.customer AND e.page = 'help' ORDER BY c.name;
SELECT c.name, e.page FROM customers c, events e WHERE c.customer = e.customer AND e.ms > 40 ORDER BY c.name, e.page;
SELECT c.name, a.page, b.page AS later FROM customers c JOIN events a ON c.customer = a.customer JOIN events b ON a.customer = b.customer WHERE a.minute = 0 AND b.minute = 2 ORDER BY c.name, a.page, later;
SELECT c.name, k.title FROM customers c LEFT JOIN countries k ON c.country = k.code ORDER BY c.name;
SELECT c.name, k.title, e.page FROM events e JOIN customers c ON e.customer = c.customer JOIN countries k ON c.country = k.code WHERE e.minute = 2 ORDER BY c.name, e.page;
-- subqueries
SELECT c.name, s.hits FROM customers c JOIN (SELECT customer, count(*) AS hits FROM events GROUP BY customer) s ON c.customer = s.customer ORDER BY s.hits DESC, c.name;
SELECT max(s.total) AS top, count(*) AS pages FROM (SELECT page, sum(ms) AS total FROM events GROUP BY page) s;
SELECT s.page, s.total FROM (SELECT page, sum(ms) AS total FROM events GROUP BY page) s WHERE s.total > 40 ORDER BY s.page;
SELECT k.title, s.n FROM countries k LEFT JOIN (SELECT country, count(*) AS n FROM customers GROUP BY country) s ON k.code = s.country ORDER BY k.title;
SELECT s.customer, s.page FROM (SELECT customer, page, ms FROM events ORDER BY ms DESC, customer, page LIMIT 5) s ORDER BY s.customer, s.page;
