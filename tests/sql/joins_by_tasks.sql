-- queries over tables that tasks compute, each over the rows of its shard group
SET citus.shard_count TO 4;
CREATE TABLE stores (id bigint PRIMARY KEY, name text);
SELECT create_distributed_table('stores', 'id');
CREATE TABLE orders (store bigint, id bigint, buyer text, amount integer, kind bigint, PRIMARY KEY (store, id));
SELECT create_distributed_table('orders', 'store', colocate_with => 'stores');
CREATE TABLE notes (store bigint, text text);
SELECT create_distributed_table('notes', 'store', colocate_with => 'stores');
CREATE TABLE kinds (id bigint PRIMARY KEY, title text);
SELECT create_reference_table('kinds');
INSERT INTO stores VALUES (1, 'Anchor'), (2, 'Buoy'), (3, 'Crane'), (4, 'Dock'), (5, 'Eddy'), (6, 'Ferry');
INSERT INTO orders VALUES (1, 1, 'ada', 40, 1), (1, 2, NULL, 15, 2), (2, 1, 'bob', 8, 1), (3, 1, 'ada', 7, NULL), (3, 2, 'eve', 99, 1), (4, 1, 'bob', 8, 9), (6, 1, 'eve', 5, 2);
INSERT INTO notes VALUES (1, 'north'), (3, 'south'), (3, 'shed'), (5, 'quay');
INSERT INTO kinds VALUES (1, 'tea'), (2, 'rope'), (3, 'tar');
-- an inner join
SELECT name, buyer, amount FROM stores JOIN orders ON store = stores.id ORDER BY name, amount;
-- a left row without a partner stands once
SELECT name, amount FROM stores LEFT JOIN orders ON store = stores.id ORDER BY name, amount;
SELECT name FROM stores LEFT JOIN orders ON store = stores.id WHERE buyer IS NULL ORDER BY name;
-- a right side behind a right side
SELECT name, amount, text FROM stores LEFT JOIN orders ON orders.store = stores.id LEFT JOIN notes ON notes.store = orders.store ORDER BY name, amount, text;
-- a reference table
SELECT title, name, amount FROM stores JOIN orders ON store = stores.id JOIN kinds ON kind = kinds.id ORDER BY title, amount;
SELECT store, orders.id, title FROM orders LEFT JOIN kinds ON kind = kinds.id ORDER BY store, orders.id;
SELECT store, title FROM orders, kinds WHERE amount > 30 ORDER BY store, title;
-- a reference table on the left: its rows without a partner stand once
SELECT title, amount FROM kinds LEFT JOIN orders ON kind = kinds.id ORDER BY title, amount;
-- DISTINCT over several tasks, and where one task has all equal rows
SELECT DISTINCT buyer FROM stores JOIN orders ON store = stores.id ORDER BY buyer;
SELECT DISTINCT store, buyer FROM stores JOIN orders ON store = stores.id ORDER BY store, buyer;
SELECT DISTINCT title FROM orders JOIN kinds ON kind = kinds.id ORDER BY title;
-- the order and the cut are of all rows
SELECT name, amount FROM stores JOIN orders ON store = stores.id ORDER BY amount DESC, name LIMIT 3 OFFSET 1;
SELECT name, amount FROM stores LEFT JOIN orders ON store = stores.id ORDER BY amount, name LIMIT 2;
SELECT DISTINCT buyer FROM stores JOIN orders ON store = stores.id ORDER BY buyer DESC LIMIT 2;
-- no rows
SELECT name, amount FROM stores JOIN orders ON store = stores.id WHERE amount > 1000;
-- a table with itself
SELECT a.store, a.id, b.id AS other FROM orders a JOIN orders b ON a.store = b.store AND a.id < b.id ORDER BY a.store;
-- one group alone
SELECT name, buyer FROM stores JOIN orders ON store = stores.id WHERE store = 3 ORDER BY buyer;
-- two of the groups
SELECT name, buyer FROM stores JOIN orders ON store = stores.id WHERE store IN (3, 4) ORDER BY name, buyer;
-- groups of one table over several tasks, and groups that one task has whole
SELECT buyer, count(*), min(amount), max(amount), sum(amount) FROM orders GROUP BY buyer ORDER BY buyer;
SELECT store, count(*), sum(amount) FROM orders GROUP BY store ORDER BY store;
-- HAVING sees whole groups
SELECT buyer, count(*) FROM orders GROUP BY buyer HAVING count(*) > 1 ORDER BY buyer;
SELECT amount, count(*) FROM orders GROUP BY amount HAVING sum(amount) > 14 ORDER BY amount;
-- counts of no rows
SELECT count(*), count(buyer), sum(amount), min(amount) FROM orders WHERE amount > 1000;
SELECT buyer, count(*) FROM orders WHERE amount > 1000 GROUP BY buyer;
SELECT count(*), count(buyer), sum(amount), min(buyer), max(amount) FROM orders;
