CREATE TABLE stores (id bigint PRIMARY KEY, name text);
SELECT create_distributed_table('stores', 'id', shard_count => 4);
CREATE TABLE orders (store bigint, id bigint, amount integer, PRIMARY KEY (store, id));
SELECT create_distributed_table('orders', 'store', colocate_with => 'stores');
INSERT INTO stores VALUES (1, 'Anchor'), (2, 'Buoy'); INSERT INTO orders VALUES (1, 1, 40), (1, 2, 15), (2, 1, 8);
SELECT name, amount FROM stores JOIN orders ON store = stores.id WHERE store = 1 ORDER BY amount;
EXPLAIN SELECT name, amount FROM stores JOIN orders ON store = stores.id WHERE store = 1;
SELECT citus_move_shard_placement(102008, 1, 2);
