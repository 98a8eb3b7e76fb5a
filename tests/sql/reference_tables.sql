-- Reference tables: one shard, which lies on each node. Writes of them run, queries of them alone, and joins with the tables of one shard group.
CREATE TABLE countries (code text PRIMARY KEY, name text);
CREATE TABLE stores (id bigint PRIMARY KEY, name text, country text);
CREATE TABLE units (id integer, label text);
SELECT create_reference_table('countries');
SELECT create_reference_table('units');
SELECT create_distributed_table('stores', 'id');
SELECT create_reference_table('countries'); -- twice
SELECT create_reference_table('stores'); -- it is distributed
SELECT create_distributed_table('countries', 'code');
SELECT create_reference_table('nowhere');
SELECT create_distributed_table('units', 'id', colocate_with => 'stores');
INSERT INTO stores VALUES (1, 'Anchor', 'de'), (2, 'Buoy', NULL);
SELECT * FROM countries;
SELECT count(*), max(name) FROM countries;
SELECT count(*) FROM countries WHERE code = 'de';
SELECT a.code FROM countries a JOIN countries b ON a.code = b.code;
SELECT s.name, c.name AS country FROM stores s LEFT JOIN countries c ON s.country = c.code WHERE s.id = 1;
SELECT s.name, c.name AS country FROM stores s JOIN countries c ON s.country = c.code WHERE s.id = 1;
SELECT s.name, u.label FROM stores s LEFT JOIN units u ON u.id = s.id WHERE s.id = 2;
SELECT s.name FROM stores s LEFT JOIN countries c ON s.country = c.code ORDER BY s.name; -- over several shards
INSERT INTO countries VALUES ('de', 'Germany'), ('dk', 'Denmark'), ('nl', NULL);
INSERT INTO countries VALUES ('se', 'Sweden'), ('dk', 'Danmark'); -- one key is taken, so neither row is there
INSERT INTO units VALUES (2, 'two'), (2, NULL), (NULL, 'none'), (1 + 2, 'three');
INSERT INTO units VALUES (2147483648, 'wide');
UPDATE countries SET name = 'Netherlands' WHERE code = 'nl';
UPDATE countries SET code = 'xx' WHERE code = 'de'; -- the key
UPDATE units SET id = id + 1 WHERE label IS NOT NULL;
UPDATE units SET id = id * 1000000000 WHERE id = 3;
DELETE FROM countries WHERE name = 'Germany' AND code <> 'nl';
DELETE FROM countries WHERE code = 'at';
SELECT * FROM countries ORDER BY code;
SELECT id, label FROM units ORDER BY id, label;
SELECT c.name, u.label FROM countries c JOIN units u ON u.id = 3 AND c.code = 'dk' ORDER BY u.label;
SELECT s.name, c.name AS country FROM stores s LEFT JOIN countries c ON s.country = c.code WHERE s.id = 1;
INSERT INTO countries VALUES ('de', 'Germany');
SELECT s.name, c.name AS country FROM stores s JOIN countries c ON s.country = c.code WHERE s.id = 1;
SELECT s.name, u.label FROM stores s LEFT JOIN units u ON u.id = s.id + 1 WHERE s.id = 2 ORDER BY u.label;
SELECT d.code, d.n FROM (SELECT code, count(*) AS n FROM countries GROUP BY code) d WHERE d.code > 'dk' ORDER BY d.code;
