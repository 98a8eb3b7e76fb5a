-- Texts are compared by their bytes. A bar, a backslash and a newline are written as two signs; an empty text isn't
-- NULL.

-- Six rows of one tenant, and three of another that stand in the same shard.
CREATE TABLE sales (tenant bigint, id bigint, price bigint, quantity integer, note text, PRIMARY KEY (tenant, id));
SELECT create_distributed_table('sales', 'tenant', shard_count => 4);
INSERT INTO sales VALUES (1, 1, 10, 3, 'apple');
INSERT INTO sales VALUES (1, 2, -7, 2, 'b|c');
INSERT INTO sales VALUES (1, 3, NULL, 5, '');
INSERT INTO sales VALUES (1, 4, 10, NULL, NULL);
INSERT INTO sales VALUES (1, 5, 7, -2, 'Apple');
INSERT INTO sales VALUES (1, 6, 0, 2, 'back\slash');
INSERT INTO sales VALUES (6, 1, 9223372036854775807, 2147483647, 'two
lines');
INSERT INTO sales VALUES (6, 2, -9223372036854775807 - 1, -2147483648, 'it''s');
INSERT INTO sales VALUES (6, 3, 9223372036854775807, 2147483647, 'é');

-- What is asked.
SELECT id FROM sales WHERE tenant = 1 AND note < 'apple' ORDER BY id;
SELECT note FROM sales WHERE tenant = 1 AND note >= 'b' ORDER BY note;
SELECT id, note FROM sales WHERE tenant = 1 AND note = '';
SELECT id, note FROM sales WHERE tenant = 1 AND note IS NULL;
SELECT id FROM sales WHERE tenant = 1 AND note IN ('APPLE', 'Apple', 'b|c') ORDER BY id;
SELECT note FROM sales WHERE tenant = 6 ORDER BY note;
SELECT min(note), max(note), count(note) FROM sales WHERE tenant = 1 AND id < 4;
SELECT coalesce(note, 'none') FROM sales WHERE tenant = 1 AND id = 4;
SELECT 'a|b\c' AS x FROM sales WHERE tenant = 1 AND note > 'b';
SELECT CASE WHEN note = '' THEN 'empty' WHEN note > 'a' THEN note END AS kind FROM sales WHERE tenant = 1 ORDER BY id;
