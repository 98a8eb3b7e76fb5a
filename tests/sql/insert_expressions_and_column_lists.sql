-- Rows that are inserted by expressions, with columns in any order and some left out, and read back.

-- Six rows of one tenant, and three of another that stand in the same shard.
CREATE TABLE sales (tenant bigint, id bigint, price bigint, quantity integer, note text, PRIMARY KEY (tenant, id));
SELECT create_distributed_table('sales', 'tenant', shard_count => 4);
INSERT INTO sales VALUES (1, 1, 10, 3, 'apple');
INSERT INTO sales VALUES (1, 2, -7, 2, 'b|c');
INSERT INTO sales VALUES (1, 3, NULL, 5, '');
INSERT INTO sales VALUES (1, 4, 10, NULL, NULL);
INSERT INTO sales VALUES (1, 5, 7, -2, 'Apple');
INSERT INTO sales VALUES (1, 6, 0, 2, 'back\slash');
INSERT INTO sales VALUES (6, 1, 9223372036854775807, 2147483647, 'two
lines');
INSERT INTO sales VALUES (6, 2, -9223372036854775807 - 1, -2147483648, 'it''s');
INSERT INTO sales VALUES (6, 3, 9223372036854775807, 2147483647, 'é');

-- What is asked.
INSERT INTO sales (note, id, tenant) VALUES ('late', 2 * 5 - 1, 1);
SELECT * FROM sales WHERE tenant = 1 AND id = 9;
INSERT INTO sales VALUES (1, 9, 1, 1, 'again');
INSERT INTO sales (tenant, id) VALUES (2, 9);
SELECT * FROM sales WHERE tenant = 2;
INSERT INTO sales VALUES (1, 10, coalesce(NULL, 4) * -2, CASE WHEN 1 > 2 THEN 5 END, '');
SELECT price, quantity, note FROM sales WHERE tenant = 1 AND id = 10;
INSERT INTO sales VALUES (-1, -1, -9223372036854775807 - 1, -2147483648, 'a''b|c\d');
SELECT * FROM sales WHERE tenant = -1;
SELECT count(*), max(id) FROM sales WHERE tenant = 1;
