-- ORDER BY: NULLs last, or first where it descends; by place, by output name, by expression and by what isn't shown.
-- LIMIT and OFFSET.

-- Six rows of one tenant, and three of another that stand in the same shard.
CREATE TABLE sales (tenant bigint, id bigint, price bigint, quantity integer, note text, PRIMARY KEY (tenant, id));
SELECT create_distributed_table('sales', 'tenant', shard_count => 4);
INSERT INTO sales VALUES (1, 1, 10, 3, 'apple');
INSERT INTO sales VALUES (1, 2, -7, 2, 'b|c');
INSERT INTO sales VALUES (1, 3, NULL, 5, '');
INSERT INTO sales VALUES (1, 4, 10, NULL, NULL);
INSERT INTO sales VALUES (1, 5, 7, -2, 'Apple');
INSERT INTO sales VALUES (1, 6, 0, 2, 'back\slash');
INSERT INTO sales VALUES (6, 1, 9223372036854775807, 2147483647, 'two
lines');
INSERT INTO sales VALUES (6, 2, -9223372036854775807 - 1, -2147483648, 'it''s');
INSERT INTO sales VALUES (6, 3, 9223372036854775807, 2147483647, 'é');

-- What is asked.
SELECT id, price FROM sales WHERE tenant = 1 ORDER BY price, id DESC;
SELECT id, price FROM sales WHERE tenant = 1 ORDER BY 2 DESC, 1;
SELECT id, -price AS price FROM sales WHERE tenant = 1 AND id < 4 ORDER BY price;
SELECT id FROM sales WHERE tenant = 1 ORDER BY quantity * quantity, id;
SELECT note FROM sales WHERE tenant = 1 ORDER BY note;
SELECT note FROM sales WHERE tenant = 1 ORDER BY note DESC LIMIT 2;
SELECT DISTINCT price FROM sales WHERE tenant = 1 ORDER BY price DESC;
SELECT DISTINCT quantity, price / 100 FROM sales WHERE tenant = 1 AND quantity = 2;
SELECT id FROM sales WHERE tenant = 1 ORDER BY id DESC LIMIT 2 OFFSET 1;
SELECT id FROM sales WHERE tenant = 1 ORDER BY id LIMIT 9 OFFSET 4;
SELECT id FROM sales WHERE tenant = 1 ORDER BY id LIMIT 0;
SELECT id FROM sales WHERE tenant = 1 OFFSET 6;
SELECT count(*) FROM sales WHERE tenant = 1 LIMIT 1 OFFSET 1;
SELECT id FROM sales WHERE tenant = 1 ORDER BY coalesce(price, 8), id LIMIT 4;
