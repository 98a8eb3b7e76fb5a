-- GROUP BY one and two keys, by expression, by place and by output name; NULLs are one group. HAVING keeps what is
-- true.

-- Six rows of one tenant, and three of another that stand in the same shard.
CREATE TABLE sales (tenant bigint, id bigint, price bigint, quantity integer, note text, PRIMARY KEY (tenant, id));
SELECT create_distributed_table('sales', 'tenant', shard_count => 4);
INSERT INTO sales VALUES (1, 1, 10, 3, 'apple');
INSERT INTO sales VALUES (1, 2, -7, 2, 'b|c');
INSERT INTO sales VALUES (1, 3, NULL, 5, '');
INSERT INTO sales VALUES (1, 4, 10, NULL, NULL);
INSERT INTO sales VALUES (1, 5, 7, -2, 'Apple');
INSERT INTO sales VALUES (1, 6, 0, 2, 'back\slash');
INSERT INTO sales VALUES (6, 1, 9223372036854775807, 2147483647, 'two
lines');
INSERT INTO sales VALUES (6, 2, -9223372036854775807 - 1, -2147483648, 'it''s');
INSERT INTO sales VALUES (6, 3, 9223372036854775807, 2147483647, 'é');

-- What is asked.
SELECT price, count(*) FROM sales WHERE tenant = 1 GROUP BY price ORDER BY price;
SELECT price, sum(quantity) FROM sales WHERE tenant = 1 GROUP BY price ORDER BY price DESC;
SELECT quantity, price, count(*) AS n FROM sales WHERE tenant = 1 AND id < 4 GROUP BY price, quantity ORDER BY n, quantity;
SELECT price % 2 AS rest, count(*) FROM sales WHERE tenant = 1 GROUP BY price % 2 ORDER BY rest;
SELECT quantity * 2 AS twice, count(*) FROM sales WHERE tenant = 1 GROUP BY 1 ORDER BY 1;
SELECT price / 10 AS tens, min(id) FROM sales WHERE tenant = 1 GROUP BY tens ORDER BY tens;
SELECT tenant, count(*) FROM sales WHERE tenant = 1 GROUP BY tenant;
SELECT price FROM sales WHERE tenant = 1 GROUP BY price HAVING count(*) > 1;
SELECT price, min(quantity) FROM sales WHERE tenant = 1 GROUP BY price HAVING min(quantity) > 0 ORDER BY price;
SELECT note FROM sales WHERE tenant = 1 GROUP BY note HAVING min(quantity) IS NULL;
SELECT price FROM sales WHERE tenant = 1 GROUP BY price ORDER BY count(*) DESC, price LIMIT 3;
SELECT price * 2 + count(*) AS mix FROM sales WHERE tenant = 1 GROUP BY price ORDER BY mix;
SELECT count(*) FROM sales WHERE tenant = 9 GROUP BY price;
SELECT DISTINCT count(*) FROM sales WHERE tenant = 1 GROUP BY price ORDER BY 1;
