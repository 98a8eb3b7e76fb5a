-- Node 1 has got too full: the two large shops lie there. A rebalance by size moves what makes the nodes even. There are two nodes.
SET citus.shard_count TO 4;
CREATE TABLE stores (id bigint PRIMARY KEY, name text);
SELECT create_distributed_table('stores', 'id');
CREATE TABLE orders (store bigint, id bigint, amount integer, PRIMARY KEY (store, id));
SELECT create_distributed_table('orders', 'store', colocate_with => 'stores');

-- Stores 1 and 2 lie in the shard groups 0 and 2, on node 1, and store 3 in group 1, on node 2.
INSERT INTO stores VALUES (1, 'Anchor'), (2, 'Buoy'), (3, 'Crane');
INSERT INTO orders VALUES (1, 1, 40), (1, 2, 15), (1, 3, 70), (1, 4, 22), (2, 1, 8), (2, 2, 5), (2, 3, 31), (3, 1, 12);

-- What would move, what moves, and what is left to do.
SELECT get_rebalance_table_shards_plan(rebalance_strategy => 'by_disk_size');
SELECT rebalance_table_shards(rebalance_strategy => 'by_disk_size');
SELECT get_rebalance_table_shards_plan(rebalance_strategy => 'by_disk_size');

-- No query has to know.
SELECT store, count(*), sum(amount) FROM orders GROUP BY store ORDER BY store;
