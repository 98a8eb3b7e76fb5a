-- The names of the outputs: AS, the column, the aggregate, `coalesce`, that of the ELSE or `case`, and `?column?`.

-- Six rows of one tenant, and three of another that stand in the same shard.
CREATE TABLE sales (tenant bigint, id bigint, price bigint, quantity integer, note text, PRIMARY KEY (tenant, id));
SELECT create_distributed_table('sales', 'tenant', shard_count => 4);
INSERT INTO sales VALUES (1, 1, 10, 3, 'apple');
INSERT INTO sales VALUES (1, 2, -7, 2, 'b|c');
INSERT INTO sales VALUES (1, 3, NULL, 5, '');
INSERT INTO sales VALUES (1, 4, 10, NULL, NULL);
INSERT INTO sales VALUES (1, 5, 7, -2, 'Apple');
INSERT INTO sales VALUES (1, 6, 0, 2, 'back\slash');
INSERT INTO sales VALUES (6, 1, 9223372036854775807, 2147483647, 'two
lines');
INSERT INTO sales VALUES (6, 2, -9223372036854775807 - 1, -2147483648, 'it''s');
INSERT INTO sales VALUES (6, 3, 9223372036854775807, 2147483647, 'é');

-- What is asked.
SELECT * FROM sales WHERE tenant = 1 AND id = 1;
select SALES.*, Id As Twice, sales.id from Sales where TENANT = 1 and id = 6;
SELECT id AS count, price AS end, s.note FROM sales s WHERE tenant = 1 AND id = 1;
SELECT price + 1, -price, 5, 'a', NULL, (price) FROM sales WHERE tenant = 1 AND id = 1;
SELECT CASE WHEN id = 1 THEN price END, CASE WHEN id = 1 THEN 2 ELSE price END, CASE WHEN id = 1 THEN 2 ELSE 3 END FROM sales WHERE tenant = 1 AND id = 1;
SELECT coalesce(price, 1), CASE WHEN id = 1 THEN 0 ELSE coalesce(price, 1) END FROM sales WHERE tenant = 1 AND id = 1;
SELECT max(id), sum(id), min(id), count(*), max(id) + 1 FROM sales WHERE tenant = 1;
