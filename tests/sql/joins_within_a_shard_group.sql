-- Tables of one co-location group are joined where their rows lie: each query names one value of the distribution column.
CREATE TABLE store (id bigint, name text, PRIMARY KEY (id));
SELECT create_distributed_table('store', 'id', shard_count => 4);
CREATE TABLE item (store bigint, id bigint, price bigint, PRIMARY KEY (store, id));
SELECT create_distributed_table('item', 'store', colocate_with => 'store');
CREATE TABLE sale (store bigint, item bigint, n integer);
SELECT create_distributed_table('sale', 'store', colocate_with => 'store');
INSERT INTO store VALUES (1, 'north'), (2, 'south'), (6, 'west');
INSERT INTO item VALUES (1, 1, 10), (1, 2, 25), (1, 3, NULL), (2, 1, 7), (6, 1, 100);
INSERT INTO sale VALUES (1, 1, 2), (1, 1, 3), (1, 2, 1), (2, 1, 9), (1, 9, 4);
SELECT s.name, i.id, i.price FROM store s JOIN item i ON s.id = i.store WHERE s.id = 1 ORDER BY i.id;
SELECT s.name, i.id FROM store s, item i WHERE s.id = i.store AND i.store = 6;
SELECT i.id, a.n FROM item i LEFT JOIN sale a ON i.store = a.store AND i.id = a.item WHERE i.store = 1 ORDER BY i.id, a.n;
SELECT a.item, i.price FROM sale a LEFT JOIN item i ON a.store = i.store AND a.item = i.id AND i.price > 10 WHERE a.store = 1 ORDER BY a.item, a.n;
SELECT s.name, i.price, a.n FROM store s JOIN item i ON s.id = i.store JOIN sale a ON a.store = i.store AND a.item = i.id WHERE a.store = 1 ORDER BY a.n;
SELECT x.id, y.id AS other FROM item x JOIN item y ON x.store = y.store AND x.id < y.id WHERE x.store = 1 ORDER BY 1, 2;
SELECT s.name, t.total FROM store s JOIN (SELECT store, sum(n) AS total FROM sale GROUP BY store) t ON s.id = t.store WHERE s.id = 1;
SELECT t.item, t.total FROM (SELECT store, item, sum(n) AS total FROM sale GROUP BY store, item HAVING count(*) > 1) t WHERE t.store = 1;
SELECT d.item FROM (SELECT DISTINCT store, item FROM sale) d WHERE d.store = 1 ORDER BY d.item;
SELECT q.id FROM (SELECT store, id FROM item WHERE store = 1 ORDER BY id DESC, store LIMIT 2) q ORDER BY q.id;
SELECT i.id, s.name FROM item i CROSS JOIN store s WHERE i.store = 2 AND s.id = 2;
-- 1 and 6 are in one shard.
SELECT s.name, i.price FROM store s JOIN item i ON s.id = i.store WHERE s.id IN (1, 6) ORDER BY i.price, s.name;
SELECT count(*) FROM item WHERE store IN (1, 6);
