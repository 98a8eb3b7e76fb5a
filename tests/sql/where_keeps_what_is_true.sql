-- A row is kept where the condition is true, and not where it is unknown.

-- Six rows of one tenant, and three of another that stand in the same shard.
CREATE TABLE sales (tenant bigint, id bigint, price bigint, quantity integer, note text, PRIMARY KEY (tenant, id));
SELECT create_distributed_table('sales', 'tenant', shard_count => 4);
INSERT INTO sales VALUES (1, 1, 10, 3, 'apple');
INSERT INTO sales VALUES (1, 2, -7, 2, 'b|c');
INSERT INTO sales VALUES (1, 3, NULL, 5, '');
INSERT INTO sales VALUES (1, 4, 10, NULL, NULL);
INSERT INTO sales VALUES (1, 5, 7, -2, 'Apple');
INSERT INTO sales VALUES (1, 6, 0, 2, 'back\slash');
INSERT INTO sales VALUES (6, 1, 9223372036854775807, 2147483647, 'two
lines');
INSERT INTO sales VALUES (6, 2, -9223372036854775807 - 1, -2147483648, 'it''s');
INSERT INTO sales VALUES (6, 3, 9223372036854775807, 2147483647, 'é');

-- What is asked.
SELECT id FROM sales WHERE tenant = 1 AND price = NULL;
SELECT id FROM sales WHERE tenant = 1 AND price <> 10 ORDER BY id;
SELECT id FROM sales WHERE tenant = 1 AND NOT price = 10 ORDER BY id;
SELECT id FROM sales WHERE price = 10 AND tenant = 1 AND quantity > 0;
SELECT id FROM sales WHERE tenant = 1 AND (price = 7 OR quantity > 3) ORDER BY id;
SELECT id FROM sales WHERE tenant = 1 AND NOT (price > 5 AND quantity > 0) ORDER BY id;
SELECT id FROM sales WHERE tenant = 1 AND NOT (price > 5 OR quantity > 2) ORDER BY id;
SELECT id FROM sales WHERE tenant = 1 AND price IN (7, NULL, -7) ORDER BY id;
SELECT id FROM sales WHERE tenant = 1 AND price NOT IN (7, -7) ORDER BY id;
SELECT id FROM sales WHERE tenant = 1 AND price NOT IN (7, NULL);
SELECT id FROM sales WHERE tenant = 1 AND price BETWEEN 0 AND 7 ORDER BY id;
SELECT id FROM sales WHERE tenant = 1 AND price NOT BETWEEN NULL AND 8 ORDER BY id;
SELECT id FROM sales WHERE tenant = 1 AND id BETWEEN 4 AND 3;
SELECT id FROM sales WHERE tenant = 1 AND quantity IS NULL;
SELECT id FROM sales WHERE tenant = 1 AND price IS NOT NULL AND NULL IS NULL AND note IS NOT NULL ORDER BY id;
SELECT id FROM sales WHERE tenant = 1 AND CASE WHEN price > 5 THEN quantity END = -2;
SELECT id FROM sales WHERE tenant = 1 AND coalesce(price, 0) = 0 ORDER BY id;
SELECT id FROM sales WHERE tenant = 1 AND 1 = 0;
SELECT id FROM sales WHERE (price < 0 AND tenant = 1) AND id = 2;
SELECT id FROM sales WHERE tenant IN (1) AND id = 2;
SELECT tenant + 1 AS next, tenant FROM sales WHERE tenant = 1 AND id = 2;
SELECT count(*) FROM sales WHERE tenant = -1;
SELECT s.id FROM sales AS s WHERE (s.tenant) = (+1) AND id <= 1 AND id >= 1 AND id != 2;
