-- A shop has grown: its shard group moves to another node, and no statement has to know. There are two nodes.
SET citus.shard_count TO 4;
CREATE TABLE stores (id bigint PRIMARY KEY, name text);
SELECT create_distributed_table('stores', 'id');
CREATE TABLE orders (store bigint, id bigint, amount integer, PRIMARY KEY (store, id));
SELECT create_distributed_table('orders', 'store', colocate_with => 'stores');

-- Stores 1 and 2 lie in the shard groups 0 and 2, both on node 1.
INSERT INTO stores VALUES (1, 'Anchor'), (2, 'Buoy');
INSERT INTO orders VALUES (1, 1, 40), (1, 2, 15), (2, 1, 8);
EXPLAIN SELECT name, amount FROM stores JOIN orders ON store = stores.id WHERE store = 1;

-- The group of the shard stores_102008 moves to node 2: a store and its two orders.
SELECT citus_move_shard_placement(102008, 1, 2);
EXPLAIN SELECT name, amount FROM stores JOIN orders ON store = stores.id WHERE store = 1;
SELECT name, amount FROM stores JOIN orders ON store = stores.id WHERE store = 1 ORDER BY amount;

-- Writes go where the rows are now, and a table that is distributed later has its shards beside them.
INSERT INTO orders VALUES (1, 2, 99); -- store 1 has an order 2
INSERT INTO orders VALUES (1, 3, 70);
CREATE TABLE notes (store bigint, id bigint, note text, PRIMARY KEY (store, id));
SELECT create_distributed_table('notes', 'store', colocate_with => 'stores');
INSERT INTO notes VALUES (1, 1, 'call back');
EXPLAIN SELECT note FROM notes WHERE store = 1;

-- A move that can't be made is refused, and changes nothing.
SELECT citus_move_shard_placement(102012, 1, 2); -- the orders went with their stores
SELECT citus_move_shard_placement(102012, 2, 2);
SELECT citus_move_shard_placement(102012, 2, 3);
SELECT citus_move_shard_placement(7, 1, 2);

-- And back: a store, its three orders and its note.
SELECT citus_move_shard_placement(102012, 2, 1);
SELECT count(*), sum(amount) FROM orders;

-- Store 2 goes to node 2 as well, so that three of the four groups are there. A rebalance makes the nodes even again, by its plan.
SELECT citus_move_shard_placement(102010, 1, 2);
SELECT get_rebalance_table_shards_plan();
SELECT rebalance_table_shards();
SELECT rebalance_table_shards(); -- nothing is left to do
