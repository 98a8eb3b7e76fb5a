-- A platform for shops. Each store is a tenant: its rows lie together, in one shard group.
SET citus.shard_count TO 4;
CREATE TABLE stores (id bigint PRIMARY KEY, name text, city text);
SELECT create_distributed_table('stores', 'id');

-- The orders of a store lie where the store lies.
CREATE TABLE orders (store bigint, id bigint, customer text, amount integer, PRIMARY KEY (store, id));
SELECT create_distributed_table('orders', 'store', colocate_with => 'stores');

-- Visits go by the name of a host, into shards of their own.
SET citus.shard_count TO 2;
CREATE TABLE visits (host text, page text, hits integer, PRIMARY KEY (host, page));
SELECT create_distributed_table('visits', 'host', colocate_with => 'stores'); -- a text beside a bigint
SELECT create_distributed_table('visits', 'host');

-- Stores 1 and 6 share a shard. Store 2 has no city.
INSERT INTO stores VALUES (1, 'Anchor', 'Bremen');
INSERT INTO stores (id, name) VALUES (2, 'Buoy');
INSERT INTO stores VALUES (3, 'C|D Books', 'Kiel');
INSERT INTO stores VALUES (6, 'Dune', 'Emden');

-- A guest has no name, and an open order no amount. Fields are parted by tabs.
COPY orders FROM STDIN;
1	1	ada	40
1	2	bob	15
1	3	ada	25
1	4	\N	7
3	1	eve	90
3	2	eve	\N
6	1	ada	12
\.
INSERT INTO orders VALUES (1, 2, 'eve', 99); -- store 1 has an order 2

COPY visits FROM STDIN (FORMAT CSV, HEADER);
host,page,hits
anchor.example,/,120
anchor.example,/sale,30
dune.example,/,8
\.

-- Each query names its tenant, and so its shard.
SELECT * FROM stores WHERE id = 2;
SELECT name, city FROM stores WHERE id = 3;
SELECT id, customer, amount FROM orders WHERE store = 1 ORDER BY customer DESC, amount DESC LIMIT 3;
SELECT customer, count(*) AS placed, sum(amount) AS total FROM orders WHERE store = 1
    GROUP BY customer HAVING sum(amount) >= 10 ORDER BY total DESC;
SELECT DISTINCT COALESCE(customer, 'guest') AS buyer FROM orders WHERE store = 1 AND amount < 40 ORDER BY buyer;
SELECT id, CASE WHEN amount IS NULL THEN 'open' WHEN amount < 50 THEN 'small' ELSE 'large' END AS size FROM orders
    WHERE store = 3 ORDER BY id;
SELECT count(*), count(amount), sum(amount), max(amount) FROM orders WHERE store = 3;
SELECT count(*), sum(amount) FROM orders WHERE store = 2;
SELECT page, hits FROM visits WHERE host = 'anchor.example' ORDER BY hits DESC LIMIT 1;

-- Stores and orders of a tenant lie in one shard group, so that a join of them is one query of that group.
SELECT name, orders.id, amount FROM stores JOIN orders ON store = stores.id WHERE stores.id = 3 ORDER BY orders.id;

-- A write goes to all the shards that it concerns, or to none.
INSERT INTO orders VALUES (1, 5, 'zoe', 30), (2, 1, 'zoe', 5), (3, 3, 'zoe', 8);
UPDATE orders SET amount = amount + 1 WHERE store = 3 AND customer = 'eve';
DELETE FROM orders WHERE customer = 'zoe';

-- This one names no tenant, so that all four shards are read.
SELECT count(*) FROM orders;
