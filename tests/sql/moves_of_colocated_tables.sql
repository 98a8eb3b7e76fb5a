-- The shards of co-located tables move together, and a table that joins them later has its shards where their groups are.
CREATE TABLE stores (id bigint PRIMARY KEY, name text); -- 1
SELECT create_distributed_table('stores', 'id', shard_count => 4); -- 2: shards 102008 to 102011
CREATE TABLE orders (store bigint, id bigint, amount integer, PRIMARY KEY (store, id)); -- 3
SELECT create_distributed_table('orders', 'store', colocate_with => 'stores'); -- 4: 102012 to 102015
CREATE TABLE kinds (id bigint PRIMARY KEY, word text); -- 5
SELECT create_reference_table('kinds'); -- 6: 102016, group 4
INSERT INTO stores VALUES (1, 'Anchor'), (2, 'Buoy'); -- 7: groups 0 and 2
INSERT INTO orders VALUES (1, 1, 40), (1, 2, 15), (2, 1, 8); -- 8
INSERT INTO kinds VALUES (1, 'hemp'), (2, 'brass'); -- 9
SELECT citus_move_shard_placement(102012, 1, 2); -- 10: a store and its two orders
SELECT citus_move_shard_placement(102008, 1, 2); -- 11: moved already

CREATE TABLE items (store bigint, id bigint, kind bigint, PRIMARY KEY (store, id)); -- 12
SELECT create_distributed_table('items', 'store', colocate_with => 'orders'); -- 13: 102017 to 102020
INSERT INTO items VALUES (1, 1, 1), (2, 1, 2); -- 14
SELECT name, amount, word FROM stores JOIN orders ON stores.id = orders.store JOIN items ON orders.store = items.store AND orders.id = items.id JOIN kinds ON items.kind = kinds.id WHERE stores.id = 1; -- 15
EXPLAIN SELECT * FROM items WHERE store = 1; -- 16
EXPLAIN SELECT * FROM items WHERE store = 2; -- 17
SELECT citus_move_shard_placement(102017, 2, 1); -- 18: with its item
SELECT citus_move_shard_placement(102019, 1, 2); -- 19: the other store
SELECT name, amount, word FROM stores JOIN orders ON stores.id = orders.store JOIN items ON orders.store = items.store AND orders.id = items.id JOIN kinds ON items.kind = kinds.id ORDER BY amount; -- 20

-- Groups that are opened anew are on the nodes in turn, wherever others were moved.
CREATE TABLE apart (k bigint PRIMARY KEY); -- 21
SELECT create_distributed_table('apart', 'k', shard_count => 2); -- 22
