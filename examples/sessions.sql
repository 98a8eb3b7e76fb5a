-- Three sessions in a block: two serve a shop each, and the third moves another shop to node 1. There are two nodes.
CREATE TABLE shops (id bigint PRIMARY KEY, name text);
SELECT create_distributed_table('shops', 'id', shard_count => 4);
CREATE TABLE orders (shop bigint, id bigint, cents integer, PRIMARY KEY (shop, id));
SELECT create_distributed_table('orders', 'shop', colocate_with => 'shops');
INSERT INTO shops VALUES (1, 'Anchor'), (2, 'Buoy'), (3, 'Crane');

\parallel
\session 1
INSERT INTO orders VALUES (1, 1, 1200), (1, 2, 250);
UPDATE orders SET cents = cents + 5 WHERE shop = 1;
\session 2
INSERT INTO orders VALUES (2, 1, 800);
CREATE TABLE notes (shop bigint); -- a block holds no statement on the catalogue
\session 3
SELECT citus_move_shard_placement(102009, 2, 1); -- Crane lies in shard group 1, on node 2
\session 1
SELECT count(*) AS placed, sum(cents) AS total FROM orders WHERE shop = 1; -- a session sees its own writes
\end

-- What all of them left.
SELECT shop, count(*) AS placed, sum(cents) AS total FROM orders GROUP BY shop ORDER BY shop;
EXPLAIN SELECT name FROM shops WHERE id = 3;
