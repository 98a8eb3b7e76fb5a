-- Columns and aggregates where a query that groups, or a condition, has no place for them.

-- Two distributed tables, and one that is not.
CREATE TABLE sales (tenant bigint, id bigint, price bigint, quantity integer, note text, PRIMARY KEY (tenant, id));
SELECT create_distributed_table('sales', 'tenant', shard_count => 4);
CREATE TABLE shops (id bigint PRIMARY KEY, name text);
SELECT create_distributed_table('shops', 'id');
CREATE TABLE loose (id bigint, name text);

-- What is refused.
SELECT price, count(*) FROM sales WHERE tenant = 1;
SELECT price FROM sales GROUP BY quantity;
SELECT id FROM sales WHERE tenant = 1 AND count(*) > 1;
SELECT sum(max(price)) FROM sales WHERE tenant = 1;
SELECT DISTINCT price FROM sales ORDER BY id;
SELECT count(*) FROM sales GROUP BY price HAVING id > 1;
SELECT count(*) FROM sales GROUP BY 1;
INSERT INTO sales (tenant, id) VALUES (1, count(*));
SELECT count(*) FROM sales JOIN shops ON tenant = shops.id;
