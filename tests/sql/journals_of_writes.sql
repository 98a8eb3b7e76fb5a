-- A write has an entry in the journal of each group that it touches, and none elsewhere; one that is refused for its rows has one, in one group.
CREATE TABLE t (k bigint, v bigint, PRIMARY KEY (k)); -- 1
SELECT create_distributed_table('t', 'k', shard_count => 4); -- 2

-- Keys 1, 6 and 9 lie in group 0, 3 and 8 in group 1, 2, 5 and 10 in group 2, 4 and 7 in group 3.
INSERT INTO t VALUES (1, 10), (2, 20), (3, 30), (4, 40); -- 3
INSERT INTO t VALUES (6, 60), (9, 90); -- 4
INSERT INTO t VALUES (8, 80), (4, 99), (2, 99); -- 5: 2 and 4 are taken, in groups 2 and 3
INSERT INTO t VALUES (10, 1), (10, 2); -- 6: twice
INSERT INTO t VALUES (NULL, 1); -- 7: refused before any group
INSERT INTO t VALUES (1, 9223372036854775807 + 1); -- 8: so too

-- An UPDATE or DELETE touches the groups that its WHERE leaves, also where it finds no row.
UPDATE t SET v = v + 1 WHERE k = 1; -- 9
UPDATE t SET v = v + 1; -- 10
UPDATE t SET v = 9223372036854775807 + v WHERE k IN (3, 4, 7); -- 11: out of range in groups 1 and 3
UPDATE t SET v = v * 9223372036854775807 WHERE k = 0; -- 12: no row
UPDATE t SET v = 0 WHERE k = 1 AND k = 2; -- 13: no group
DELETE FROM t WHERE k IN (1, 3); -- 14
DELETE FROM t WHERE v = 12345; -- 15
UPDATE t SET k = 9 WHERE k = 2; -- 16: refused by planning

-- 17 to 20: a COPY is as the INSERT of its rows. One of no rows touches no group, one that is refused for its data has no entry.
COPY t FROM STDIN;
5	50
7	70
12	120
\.
COPY t FROM STDIN;
\.
COPY t FROM STDIN;
13	130
14
\.
COPY t FROM STDIN;
13	130
5	51
7	71
\.
SELECT * FROM t ORDER BY k; -- 21
