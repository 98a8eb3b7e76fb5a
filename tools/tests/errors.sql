-- Errors of each kind: with a place, in a row, and of a whole statement.
CREATE TABLE t (k bigint PRIMARY KEY, v text);
SELECT create_distributed_table('t', 'k',
    shard_count => 4);
SELECT k,
	kk FROM t;
INSERT INTO t VALUES (1, 'it''s (one)'), -- in the row behind
    (NULL, 'two');
INSERT INTO t VALUES (1, '(2 rows)'), (5, 'ERROR 4 syntax at 0'), (9, 'journal');
INSERT INTO t VALUES (1, 'again');
SELECT v FROM t WHERE k < 6 ORDER BY v DESC; SELECT größe FROM t;
COPY t FROM STDIN;
2	two
x	three; no statement
\.
COPY t FROM STDIN (FORMAT CSV, HEADER);
k,v

3,"of two
lines, and ""more"""
4,four,5
\.
SELECT v AS journal FROM t WHERE k = 9;
SELECT '寿司' FROM t;
SELECT max(k), nope FROM t;
SELECT k FROM t WHERE k IN (1000000001, 1000000002, 1000000003, 1000000004, 1000000005, 1000000006, 1000000007, 1000000008, 'nine', 1000000010, 1000000011);
