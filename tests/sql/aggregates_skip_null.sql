-- Aggregates without GROUP BY: they skip NULL, and over no rows a count is 0 and the others are NULL.

-- Six rows of one tenant, and three of another that stand in the same shard.
CREATE TABLE sales (tenant bigint, id bigint, price bigint, quantity integer, note text, PRIMARY KEY (tenant, id));
SELECT create_distributed_table('sales', 'tenant', shard_count => 4);
INSERT INTO sales VALUES (1, 1, 10, 3, 'apple');
INSERT INTO sales VALUES (1, 2, -7, 2, 'b|c');
INSERT INTO sales VALUES (1, 3, NULL, 5, '');
INSERT INTO sales VALUES (1, 4, 10, NULL, NULL);
INSERT INTO sales VALUES (1, 5, 7, -2, 'Apple');
INSERT INTO sales VALUES (1, 6, 0, 2, 'back\slash');
INSERT INTO sales VALUES (6, 1, 9223372036854775807, 2147483647, 'two
lines');
INSERT INTO sales VALUES (6, 2, -9223372036854775807 - 1, -2147483648, 'it''s');
INSERT INTO sales VALUES (6, 3, 9223372036854775807, 2147483647, 'é');

-- What is asked.
SELECT count(*), count(price), count(note), count(NULL) FROM sales WHERE tenant = 1;
SELECT sum(price), min(price), max(price) FROM sales WHERE tenant = 1;
SELECT sum(quantity), min(note), max(note) FROM sales WHERE tenant = 1;
SELECT count(*), count(id), sum(price), min(note), max(id) FROM sales WHERE tenant = 1 AND id > 100;
SELECT count(*), sum(price) FROM sales WHERE tenant = 1 AND price > 10;
SELECT count(*), sum(price) FROM sales WHERE tenant = 1 AND price IS NULL;
SELECT count(*) FROM sales WHERE tenant = 9;
SELECT sum(price * quantity) AS total, sum(price) + count(*) FROM sales WHERE tenant = 1;
SELECT max(id) - min(id) AS span, -count(*) AS less, sum(2) FROM sales WHERE tenant = 1;
SELECT sum(CASE WHEN price > 0 THEN 1 ELSE 0 END) AS positive FROM sales WHERE tenant = 1;
SELECT coalesce(sum(price), 0) FROM sales WHERE tenant = 1 AND id = 3;
SELECT count(*) FROM sales WHERE tenant = 1 HAVING count(*) > 6;
SELECT 1 FROM sales WHERE tenant = 1 HAVING min(price) < 0;
