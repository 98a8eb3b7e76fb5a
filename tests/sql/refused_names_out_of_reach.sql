-- Tables, columns, outputs and relations that aren't in reach, or that stand for two.

-- Two distributed tables, and one that is not.
CREATE TABLE sales (tenant bigint, id bigint, price bigint, quantity integer, note text, PRIMARY KEY (tenant, id));
SELECT create_distributed_table('sales', 'tenant', shard_count => 4);
CREATE TABLE shops (id bigint PRIMARY KEY, name text);
SELECT create_distributed_table('shops', 'id');
CREATE TABLE loose (id bigint, name text);

-- What is refused.
SELECT id FROM Nothing WHERE id = 1;
SELECT colour FROM sales WHERE tenant = 1;
SELECT id FROM sales WHERE tenant = 1 AND colour = 2;
SELECT shops.id FROM sales WHERE tenant = 1;
SELECT sales.id FROM sales s WHERE tenant = 1;
SELECT id FROM sales WHERE tenant = 1 ORDER BY 2;
SELECT id FROM sales WHERE tenant = 1 GROUP BY 0;
SELECT id FROM sales JOIN shops ON tenant = shops.id;
SELECT id AS x, price AS x FROM sales ORDER BY x;
SELECT s.id FROM sales s CROSS JOIN shops s;
SELECT id FROM loose WHERE id = 1;
DELETE FROM nothing;
UPDATE sales SET colour = 1;
INSERT INTO nothing VALUES (1);
INSERT INTO sales (tenant, Colour) VALUES (1, 2);
INSERT INTO sales (tenant, tenant) VALUES (1, 2);
INSERT INTO sales (tenant, id) VALUES (1, id);
