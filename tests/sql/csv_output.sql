-- Under --csv the names and the rows of a table are CSV, without a line that counts them. Other answers are as ever.
CREATE TABLE t (k bigint, v bigint, s text, PRIMARY KEY (k));
SELECT create_distributed_table('t', 'k', shard_count => 4);
CREATE TABLE u (k bigint, v bigint, PRIMARY KEY (k));
SELECT create_distributed_table('u', 'k', colocate_with => 't');
CREATE TABLE r (id bigint PRIMARY KEY);
SELECT create_reference_table('r');
SET citus.shard_count TO 4;
INSERT INTO t VALUES (1, 10, 'one'), (2, NULL, NULL), (3, -30, ''), (4, 40, 'a,b'), (5, 50, 'a "quoted" word'), (6, 60, 'two
lines'), (7, 70, 'bar|, backslash\ and ''quote'''), (8, 80, ' blanks '), (9, 90, '#');

-- A comma, a quote or a newline puts a field in quotes; bars and backslashes stand for themselves. NULL and the empty text look alike.
SELECT k, v, s FROM t ORDER BY k;
SELECT count(*), sum(v) AS total, k + 1 FROM t WHERE k = 2 GROUP BY k;
SELECT k FROM t ORDER BY k LIMIT 1;

-- A row of one empty field is two quotes, since a blank line would be no row.
SELECT s FROM t WHERE k IN (1, 2, 3) ORDER BY k;
SELECT v FROM t WHERE k = 2;

-- No rows.
SELECT * FROM t WHERE k = 0;

-- A carriage return puts a field in quotes too.
COPY t FROM STDIN;
10	100	a\rb
\.
SELECT s FROM t WHERE k = 10;
UPDATE t SET v = 0 WHERE k > 8;
DELETE FROM t WHERE k > 8;
EXPLAIN SELECT t.k FROM t JOIN u ON t.k = u.k WHERE t.k = 1;
SELECT zz FROM t;
INSERT INTO t VALUES (1, 1, 'again');
