-- Values of an INSERT that aren't of their columns' types or ranges, or NULL where the key has none; NULL in the
-- distribution column comes after these.

-- Two distributed tables, and one that is not.
CREATE TABLE sales (tenant bigint, id bigint, price bigint, quantity integer, note text, PRIMARY KEY (tenant, id));
SELECT create_distributed_table('sales', 'tenant', shard_count => 4);
CREATE TABLE shops (id bigint PRIMARY KEY, name text);
SELECT create_distributed_table('shops', 'id');
CREATE TABLE loose (id bigint, name text);

-- What is refused.
INSERT INTO sales VALUES (1, 1, 'ten', 1, 'a');
INSERT INTO sales VALUES (1, 1, 1, 2147483648, 'a');
INSERT INTO sales VALUES (1, 1, 1, -2147483649, 'a');
INSERT INTO sales VALUES (1, 1, 1, 1, 5);
INSERT INTO sales VALUES (1, NULL, 1, 1, 'a');
INSERT INTO sales (note, tenant) VALUES ('a', 1);
INSERT INTO sales (id, tenant) VALUES (1, 'a');
INSERT INTO shops VALUES (9223372036854775807 + 1, 'a');
INSERT INTO shops VALUES (1, 'a'), (2, 2);
INSERT INTO sales VALUES (NULL, NULL, 1, 1, 'a');
INSERT INTO sales VALUES (NULL, 1, 1, 1, 'a');
INSERT INTO shops (name) VALUES ('a');
INSERT INTO shops VALUES (1, 'a'), (NULL, 'b');
INSERT INTO loose VALUES (1, 'a');
