-- The last join of a FROM makes no row: its pairs feed the items, DISTINCT, ORDER BY and LIMIT, over tables, subqueries and products, with values of both sides in one expression.
CREATE TABLE orders (customer bigint, id bigint, amount integer, note text, PRIMARY KEY (customer, id));
CREATE TABLE lines (customer bigint, id bigint, line bigint, price integer, PRIMARY KEY (customer, id, line));
CREATE TABLE rates (code bigint, rate integer, label text, PRIMARY KEY (code));
SELECT create_distributed_table('orders', 'customer', shard_count => 4);
SELECT create_distributed_table('lines', 'customer', colocate_with => 'orders');
SELECT create_reference_table('rates');
INSERT INTO orders VALUES (1, 1, 10, 'a'), (1, 2, 20, NULL), (2, 1, 30, 'b'), (3, 1, NULL, 'c'), (4, 1, 50, 'd'), (5, 1, 60, 'a');
INSERT INTO lines VALUES (1, 1, 1, 5), (1, 1, 2, 7), (1, 2, 1, NULL), (2, 1, 1, 30), (3, 1, 1, 2), (5, 1, 1, 3), (5, 1, 2, 3), (6, 1, 1, 9);
INSERT INTO rates VALUES (3, 2, 'low'), (5, 4, 'mid'), (30, 8, NULL), (9, 1, 'none');
SELECT o.customer, o.id, l.line, o.amount + l.price AS sum, o.note FROM orders o JOIN lines l ON o.customer = l.customer AND o.id = l.id ORDER BY o.customer, o.id, l.line;
SELECT DISTINCT o.note, l.price FROM orders o JOIN lines l ON o.customer = l.customer AND o.id = l.id ORDER BY o.note, l.price;
SELECT o.customer, l.line, CASE WHEN l.price > 5 THEN o.note ELSE 'small' END AS what, COALESCE(o.amount, l.price) AS first FROM orders o, lines l WHERE o.customer = l.customer AND o.id = l.id AND l.line < 2 ORDER BY o.customer, o.id, l.line;
SELECT o.customer, r.label, r.rate * l.price AS part FROM orders o JOIN lines l ON o.customer = l.customer AND o.id = l.id JOIN rates r ON l.price = r.code WHERE r.rate * l.price > o.amount OR o.amount IS NULL OR r.label IS NULL ORDER BY o.customer, o.id, l.line;
SELECT o.customer, r.code FROM orders o, rates r WHERE o.amount < r.code ORDER BY o.customer, o.id, r.code;
SELECT o.customer, t.total FROM orders o JOIN (SELECT customer, sum(price) AS total FROM lines GROUP BY customer) t ON o.customer = t.customer WHERE t.total > 5 ORDER BY o.customer, o.id;
SELECT o.note, l.line FROM orders o LEFT JOIN lines l ON o.customer = l.customer AND o.id = l.id AND l.price > 4 ORDER BY o.customer, o.id, l.line;
SELECT a.label, b.label FROM rates a, rates b WHERE a.rate + b.rate = 5 ORDER BY a.code, b.code;
SELECT o.customer, l.price FROM orders o JOIN lines l ON o.customer = l.customer AND o.id = l.id ORDER BY l.price DESC, o.customer, l.line LIMIT 3 OFFSET 1;
