-- Numbers that could need more than 127 bits, divisors that are no literal, rows and subqueries of another width.

-- Two distributed tables, and one that is not.
CREATE TABLE sales (tenant bigint, id bigint, price bigint, quantity integer, note text, PRIMARY KEY (tenant, id));
SELECT create_distributed_table('sales', 'tenant', shard_count => 4);
CREATE TABLE shops (id bigint PRIMARY KEY, name text);
SELECT create_distributed_table('shops', 'id');
CREATE TABLE loose (id bigint, name text);

-- What is refused.
SELECT price * price * price FROM sales;
SELECT price * price - 1 FROM sales;
SELECT sum(price * price) FROM sales;
SELECT price / 0 FROM sales;
SELECT price / id FROM sales;
SELECT price % (2) FROM sales;
SELECT price % - -2 FROM sales;
INSERT INTO shops VALUES (1);
INSERT INTO shops (id) VALUES (1), (2, 'b');
SELECT id FROM sales WHERE id IN (SELECT * FROM shops);
SELECT CASE WHEN id IN (SELECT id FROM shops) THEN 1 END FROM sales;
DELETE FROM sales WHERE id IN (SELECT id FROM shops);
UPDATE sales SET price = 1, id = 2;
SELECT 1 FROM shops a CROSS JOIN shops b CROSS JOIN shops c CROSS JOIN shops d CROSS JOIN shops e CROSS JOIN shops f CROSS JOIN shops g CROSS JOIN shops h CROSS JOIN shops i;
SELECT id FROM shops ORDER BY 1, 1, 1, 1, 1, 1, 1, 1, 1, 1, 1, 1, 1, 1, 1, 1, 1;
