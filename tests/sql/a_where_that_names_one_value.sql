-- What counts as one value of the distribution column: a query of it goes to one shard.
CREATE TABLE sales (tenant bigint, id bigint, price bigint, PRIMARY KEY (tenant, id));
SELECT create_distributed_table('sales', 'tenant', shard_count => 4);
INSERT INTO sales VALUES (1, 1, 5), (1, 2, 6), (2, 1, 7), (2, 2, 8), (6, 1, 9);
SELECT id FROM sales WHERE 1 = tenant ORDER BY id;
SELECT id FROM sales WHERE tenant = 1 AND tenant = 1 ORDER BY id;
SELECT id FROM sales WHERE tenant IN (1, 1) ORDER BY id;
SELECT id FROM sales WHERE tenant = 1 OR tenant = 1 ORDER BY id;
SELECT id FROM sales WHERE tenant = 1 AND tenant > 0 ORDER BY id;
SELECT id FROM sales WHERE tenant = 1 AND (id = 1 OR tenant = 2) ORDER BY id;
SELECT id FROM sales WHERE tenant IN (1, 2) AND tenant IN (2, 3) AND price > 7;
SELECT id FROM sales WHERE tenant = id AND id = 1;
SELECT tenant, id FROM sales WHERE tenant IN (1, 6) ORDER BY tenant, id;
SELECT tenant, id, price FROM sales WHERE tenant IN (1, 6, NULL) AND price > 5 ORDER BY price;
