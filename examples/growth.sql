-- A tenant grows: first its neighbour leaves the node, then it moves itself, and it is written all the while. There are two nodes.
SET citus.shard_count TO 4;
CREATE TABLE shops (id bigint PRIMARY KEY, name text);
SELECT create_distributed_table('shops', 'id');
CREATE TABLE orders (shop bigint, id bigint, buyer text, cents integer, PRIMARY KEY (shop, id));
SELECT create_distributed_table('orders', 'shop', colocate_with => 'shops');

-- Anchor and Buoy lie in the shard groups 0 and 2, on node 1, and Crane in group 1, on node 2.
INSERT INTO shops VALUES (1, 'Anchor'), (2, 'Buoy'), (3, 'Crane');
INSERT INTO orders VALUES (1, 1, 'ada', 1200), (2, 1, 'bob', 800), (2, 2, 'eve', 450), (3, 1, 'eve', 300), (3, 2, 'ada', 120), (3, 3, 'bob', 90);

-- Anchor's orders of a day come as CSV. A guest has no name.
COPY orders FROM STDIN (FORMAT CSV, HEADER);
shop,id,buyer,cents
1,2,bob,250
1,3,ada,1900
1,4,eve,75
1,5,,640
1,6,ada,310
1,7,bob,120
1,8,zoe,999
1,9,eve,45
\.
SELECT buyer, count(*) AS placed, sum(cents) AS total FROM orders WHERE shop = 1 GROUP BY buyer HAVING count(*) > 1 ORDER BY total DESC;

-- Node 1 has got too full. To move Anchor would only turn the nodes round, so Buoy goes, and its queries follow it.
EXPLAIN SELECT count(*), sum(cents) FROM orders WHERE shop = 2;
SELECT get_rebalance_table_shards_plan(rebalance_strategy => 'by_disk_size');
SELECT rebalance_table_shards(rebalance_strategy => 'by_disk_size');
EXPLAIN SELECT count(*), sum(cents) FROM orders WHERE shop = 2;
SELECT count(*), sum(cents) FROM orders WHERE shop = 2;

-- Node 1 is to rest for a night. Anchor, too, goes to node 2, and is written before, there, and behind.
INSERT INTO orders VALUES (1, 10, 'zoe', 70);
SELECT citus_move_shard_placement(102008, 1, 2);
UPDATE orders SET cents = cents + 5 WHERE shop = 1 AND buyer = 'zoe';
INSERT INTO orders VALUES (1, 9, 'eve', 45); -- the key is taken on node 2 as well
SELECT buyer, count(*) AS placed, sum(cents) AS total FROM orders WHERE shop = 1 GROUP BY buyer HAVING count(*) > 1 ORDER BY total DESC;

-- In the morning node 1 is back, and the nodes are made even again: now it is Anchor that moves.
SELECT rebalance_table_shards(rebalance_strategy => 'by_disk_size');
DELETE FROM orders WHERE shop = 1 AND id = 1;

-- Of all this nothing is seen.
SELECT s.name, o.placed, o.total FROM shops s JOIN (SELECT shop, count(*) AS placed, sum(cents) AS total FROM orders GROUP BY shop) o ON s.id = o.shop
    ORDER BY s.name;
EXPLAIN SELECT s.name, o.placed, o.total FROM shops s JOIN (SELECT shop, count(*) AS placed, sum(cents) AS total FROM orders GROUP BY shop) o
    ON s.id = o.shop ORDER BY s.name;
