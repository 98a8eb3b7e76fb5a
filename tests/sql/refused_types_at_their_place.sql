-- Numbers, texts and conditions where another kind is taken; at the operator that takes the part, or at the part.

-- Two distributed tables, and one that is not.
CREATE TABLE sales (tenant bigint, id bigint, price bigint, quantity integer, note text, PRIMARY KEY (tenant, id));
SELECT create_distributed_table('sales', 'tenant', shard_count => 4);
CREATE TABLE shops (id bigint PRIMARY KEY, name text);
SELECT create_distributed_table('shops', 'id');
CREATE TABLE loose (id bigint, name text);

-- What is refused.
SELECT note + 1 FROM sales WHERE tenant = 1;
SELECT -note FROM sales WHERE tenant = 1;
SELECT id FROM sales WHERE tenant = 1 AND price = '10';
SELECT id FROM sales WHERE price;
SELECT id FROM sales WHERE tenant = 1 AND NULL;
SELECT id FROM sales WHERE tenant = 1 AND NOT price;
SELECT price = 1 FROM sales WHERE tenant = 1;
SELECT sum(note) FROM sales WHERE tenant = 1;
SELECT CASE WHEN id = 1 THEN 1 ELSE 'a' END FROM sales;
SELECT coalesce(price, note) FROM sales;
SELECT id FROM sales WHERE note IN ('a', 1);
SELECT id FROM sales WHERE note NOT BETWEEN 'a' AND 2;
SELECT id FROM sales WHERE NULL IN (1, 'a'); -- PostgreSQL judges all operands together
SELECT id FROM sales WHERE NULL NOT BETWEEN 1 AND 'a';
SELECT id FROM sales WHERE tenant = 1 AND NULL IN (NULL, 1) AND NULL BETWEEN NULL AND 'a';
SET citus.shard_count TO ON;
SET citus.enable_repartition_joins = 1;
