-- A real-time dashboard: events of many customers lie in shards by customer, and its tiles ask over all of them.
SET citus.shard_count TO 8;
CREATE TABLE countries (code text PRIMARY KEY, title text);
SELECT create_reference_table('countries');
CREATE TABLE customers (id bigint PRIMARY KEY, name text, country text);
SELECT create_distributed_table('customers', 'id');
CREATE TABLE events (customer bigint, minute integer, page text, ms integer, PRIMARY KEY (customer, minute, page));
SELECT create_distributed_table('events', 'customer', colocate_with => 'customers');
CREATE TABLE pages (page text PRIMARY KEY, team text);
SELECT create_distributed_table('pages', 'page', shard_count => 4, colocate_with => 'none');
INSERT INTO countries VALUES ('de', 'Germany'), ('dk', 'Denmark'), ('nl', 'Netherlands');
INSERT INTO customers VALUES (1, 'Anchor', 'de'), (2, 'Buoy', 'dk'), (3, 'Cable', 'de'), (4, 'Dinghy', NULL), (5, 'Engine', 'nl');

-- Pages and events come as CSV. A field without anything in it is NULL.
COPY pages FROM STDIN (FORMAT CSV);
home,web
cart,shop
help,care
\.
COPY events FROM STDIN (FORMAT CSV, HEADER);
customer,minute,page,ms
1,0,home,12
1,0,cart,48
1,1,home,9
2,0,home,31
2,2,help,
3,1,home,7
3,1,cart,90
3,2,cart,55
5,0,help,20
5,2,home,15
\.

-- Hits and time by minute, and the slowest pages.
SELECT minute, count(*) AS hits, sum(ms) AS total FROM events GROUP BY minute ORDER BY minute;
EXPLAIN SELECT minute, count(*) AS hits, sum(ms) AS total FROM events GROUP BY minute ORDER BY minute;
SELECT page, count(*) AS hits, max(ms) AS slowest FROM events GROUP BY page HAVING count(*) > 1 ORDER BY slowest DESC LIMIT 2;

-- Customers with their hits: both tables are cut in the same way, so each shard is joined with the one beside it.
SELECT c.name, s.hits FROM customers c LEFT JOIN (SELECT customer, count(*) AS hits FROM events GROUP BY customer) s ON c.id = s.customer ORDER BY s.hits DESC, c.name;

-- The same with the customers' countries: the reference table is on every node.
WITH hits AS (SELECT customer, count(*) AS n FROM events GROUP BY customer)
SELECT k.title, c.name, hits.n FROM hits JOIN customers c ON hits.customer = c.id JOIN countries k ON c.country = k.code ORDER BY k.title, c.name;
EXPLAIN WITH hits AS (SELECT customer, count(*) AS n FROM events GROUP BY customer)
SELECT k.title, c.name, hits.n FROM hits JOIN customers c ON hits.customer = c.id JOIN countries k ON c.country = k.code ORDER BY k.title, c.name;

-- Who came at all in a minute in which a page was slow.
SELECT name FROM customers WHERE id IN (SELECT customer FROM events WHERE minute IN (SELECT minute FROM events WHERE ms > 50)) ORDER BY name;

-- Events by team: pages are cut by page and events by customer, so rows would have to move.
SELECT e.customer, e.page, p.team FROM events e JOIN pages p ON e.page = p.page WHERE e.ms > 40 ORDER BY 1, 2;
SET citus.enable_repartition_joins TO on;
SELECT e.customer, e.page, p.team FROM events e JOIN pages p ON e.page = p.page WHERE e.ms > 40 ORDER BY 1, 2;
EXPLAIN SELECT e.customer, e.page, p.team FROM events e JOIN pages p ON e.page = p.page WHERE e.ms > 40 ORDER BY 1, 2;
