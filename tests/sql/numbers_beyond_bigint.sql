-- Numbers are exact beyond their columns' types, up to 127 bits.

-- Six rows of one tenant, and three of another that stand in the same shard.
CREATE TABLE sales (tenant bigint, id bigint, price bigint, quantity integer, note text, PRIMARY KEY (tenant, id));
SELECT create_distributed_table('sales', 'tenant', shard_count => 4);
INSERT INTO sales VALUES (1, 1, 10, 3, 'apple');
INSERT INTO sales VALUES (1, 2, -7, 2, 'b|c');
INSERT INTO sales VALUES (1, 3, NULL, 5, '');
INSERT INTO sales VALUES (1, 4, 10, NULL, NULL);
INSERT INTO sales VALUES (1, 5, 7, -2, 'Apple');
INSERT INTO sales VALUES (1, 6, 0, 2, 'back\slash');
INSERT INTO sales VALUES (6, 1, 9223372036854775807, 2147483647, 'two
lines');
INSERT INTO sales VALUES (6, 2, -9223372036854775807 - 1, -2147483648, 'it''s');
INSERT INTO sales VALUES (6, 3, 9223372036854775807, 2147483647, 'é');

-- What is asked.
SELECT 9223372036854775807 + 1 AS x FROM sales WHERE tenant = 1 AND id = 1;
SELECT price + 1, price * price FROM sales WHERE tenant = 6 AND id = 1;
SELECT price, -price, price - 1, price * price FROM sales WHERE tenant = 6 AND id = 2;
SELECT price / -1, price % -1 FROM sales WHERE tenant = 6 AND id = 2;
SELECT sum(price), sum(-price) FROM sales WHERE tenant = 6;
SELECT sum(price * quantity) FROM sales WHERE tenant = 6;
SELECT quantity + quantity, quantity * quantity, -quantity FROM sales WHERE tenant = 6 AND id = 2;
SELECT 9223372036854775807 * 9223372036854775807 FROM sales WHERE tenant = 6 AND id = 1;
SELECT id FROM sales WHERE tenant = 6 AND price * 2 > 9223372036854775807 ORDER BY id;
