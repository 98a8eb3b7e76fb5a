-- Joins on other columns than those that tables are distributed by, each computed by a task for each bucket of the values that are joined.
CREATE TABLE t (k bigint PRIMARY KEY, v bigint);
CREATE TABLE u (k bigint PRIMARY KEY, w bigint);
CREATE TABLE far (k bigint PRIMARY KEY, v bigint);
CREATE TABLE people (id bigint PRIMARY KEY, name text, boss bigint);
CREATE TABLE teams (team text, lead text);
CREATE TABLE names (v bigint, name text);
CREATE TABLE nobody (k bigint, v bigint);
SELECT create_distributed_table('t', 'k', shard_count => 4);
SELECT create_distributed_table('u', 'k', colocate_with => 't');
SELECT create_distributed_table('far', 'k', shard_count => 3, colocate_with => 'none');
SELECT create_distributed_table('people', 'id', shard_count => 5, colocate_with => 'none');
SELECT create_distributed_table('teams', 'team', shard_count => 2, colocate_with => 'none');
SELECT create_reference_table('names');
SELECT create_distributed_table('nobody', 'k', shard_count => 4, colocate_with => 'none');
INSERT INTO t VALUES (1, 10), (2, 20), (3, 30), (4, 20), (5, NULL), (6, 6), (7, 20), (8, NULL);
INSERT INTO u VALUES (1, 20), (2, 40), (3, 20), (6, 5), (7, NULL), (8, 30);
INSERT INTO far VALUES (10, 1), (20, 2), (30, 5), (2, 20), (6, 20), (40, NULL);
INSERT INTO people VALUES (1, 'ann', NULL), (2, 'bob', 1), (3, 'cy', 1), (4, 'dee', 2), (5, 'ann', 2), (6, NULL, 4);
INSERT INTO teams VALUES ('red', 'ann'), ('blue', 'dee'), ('green', NULL), ('grey', 'ann');
INSERT INTO names VALUES (1, 'one'), (2, 'two'), (5, 'five'), (20, 'twenty'), (NULL, 'none');
SET citus.enable_repartition_joins TO on;
-- one side by its distribution column, and both by others
SELECT t.k, far.v FROM t JOIN far ON t.v = far.k ORDER BY t.k;
SELECT t.k, u.k AS uk FROM t JOIN u ON t.v = u.w ORDER BY t.k, u.k;
SELECT t.k, u.k AS uk FROM t, u WHERE u.w = t.v AND t.k > 1 ORDER BY t.k, u.k;
SELECT t.k, u.k AS uk, far.v FROM t JOIN u ON t.v = u.w JOIN far ON far.k = t.v ORDER BY t.k, u.k;
SELECT t.k, u.k AS uk, far.k AS fk FROM t JOIN u ON t.v = u.w JOIN far ON far.v = u.w ORDER BY t.k, u.k, far.k;
-- by texts
SELECT people.id, teams.team FROM people JOIN teams ON people.name = teams.lead ORDER BY people.id, teams.team;
-- a NULL joins nothing
SELECT t.k, far.k AS fk FROM t JOIN far ON t.v = far.v ORDER BY t.k, far.k;
-- two columns of one value
SELECT t.k, far.k AS fk FROM t JOIN far ON t.v = far.k WHERE t.v = t.k ORDER BY t.k;
-- with reference tables, and LEFT JOINs
SELECT t.k, names.name FROM t JOIN far ON t.v = far.k JOIN names ON names.v = far.v ORDER BY t.k;
SELECT t.k, names.name FROM t JOIN far ON t.v = far.k LEFT JOIN names ON names.v = far.v ORDER BY t.k;
SELECT t.k, u.w, far.v FROM t LEFT JOIN u ON t.k = u.k JOIN far ON far.k = t.v ORDER BY t.k;
SELECT names.name, t.k, u.k AS uk FROM names JOIN t ON t.v = names.v JOIN u ON u.w = t.v ORDER BY t.k, u.k;
-- one table several times
SELECT a.k, b.k AS bk FROM t a JOIN t b ON a.v = b.v ORDER BY a.k, b.k;
SELECT a.id, a.name, b.name AS boss FROM people a JOIN people b ON a.boss = b.id ORDER BY a.id;
SELECT a.id, b.id AS boss, t.k FROM people a JOIN people b ON a.boss = b.id JOIN t ON t.v = 20 AND t.k = b.id ORDER BY a.id, t.k;
SELECT a.k, b.k AS bk, c.k AS ck FROM t a JOIN t b ON a.v = b.v JOIN t c ON c.v = b.v WHERE a.k < b.k AND b.k < c.k;
-- rows of a task alone, and of several tasks
SELECT DISTINCT t.v FROM t JOIN u ON t.v = u.w ORDER BY t.v;
SELECT DISTINCT far.v FROM t JOIN far ON t.v = far.k ORDER BY far.v;
SELECT DISTINCT u.k, far.v FROM t JOIN u ON t.v = u.w JOIN far ON far.k = t.v ORDER BY u.k DESC, far.v;
SELECT t.k, u.k AS uk FROM t JOIN u ON t.v = u.w ORDER BY u.k DESC, t.k LIMIT 3;
SELECT t.k, u.k AS uk FROM t JOIN u ON t.v = u.w ORDER BY u.k, t.k DESC LIMIT 2 OFFSET 3;
SELECT t.k FROM t JOIN nobody ON t.v = nobody.v;
-- what the tasks are
EXPLAIN SELECT t.k, far.v FROM t JOIN far ON t.v = far.k;
EXPLAIN SELECT DISTINCT u.k FROM t JOIN u ON t.v = u.w;
