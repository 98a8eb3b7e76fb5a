-- Division and remainder truncate towards zero; a sign binds most.

-- Six rows of one tenant, and three of another that stand in the same shard.
CREATE TABLE sales (tenant bigint, id bigint, price bigint, quantity integer, note text, PRIMARY KEY (tenant, id));
SELECT create_distributed_table('sales', 'tenant', shard_count => 4);
INSERT INTO sales VALUES (1, 1, 10, 3, 'apple');
INSERT INTO sales VALUES (1, 2, -7, 2, 'b|c');
INSERT INTO sales VALUES (1, 3, NULL, 5, '');
INSERT INTO sales VALUES (1, 4, 10, NULL, NULL);
INSERT INTO sales VALUES (1, 5, 7, -2, 'Apple');
INSERT INTO sales VALUES (1, 6, 0, 2, 'back\slash');
INSERT INTO sales VALUES (6, 1, 9223372036854775807, 2147483647, 'two
lines');
INSERT INTO sales VALUES (6, 2, -9223372036854775807 - 1, -2147483648, 'it''s');
INSERT INTO sales VALUES (6, 3, 9223372036854775807, 2147483647, 'é');

-- What is asked.
SELECT 7 / 2, -7 / 2, 7 / -2, -7 / -2 FROM sales WHERE tenant = 1 AND id = 1;
SELECT 7 % 2, -7 % 2, 7 % -2, -7 % -2 FROM sales WHERE tenant = 1 AND id = 1;
SELECT price / 2, price % 2, price / -3, price % -3 FROM sales WHERE tenant = 1 AND id = 2;
SELECT 1 + 2 * 3 - 8 / 2 % 3, (1 + 2) * 3, 10 - 4 - 3, 100 / 10 / 5 FROM sales WHERE tenant = 1 AND id = 1;
SELECT -price, - -price, +price, -(-1), - - -2 FROM sales WHERE tenant = 1 AND id = 2;
SELECT price + 1, price * 2, NULL - price, price / 7 FROM sales WHERE tenant = 1 AND id = 3;
SELECT id, price - quantity AS difference FROM sales WHERE tenant = 1 ORDER BY difference, id;
SELECT coalesce(price, quantity, 0), coalesce(NULL, NULL) FROM sales WHERE tenant = 1 AND id = 3;
SELECT CASE WHEN price > 8 THEN 2 WHEN price > 0 THEN 1 ELSE 0 END FROM sales WHERE tenant = 1 ORDER BY id;
