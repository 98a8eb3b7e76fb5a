-- Rows that four tasks find, one in each shard, become those of the query.
CREATE TABLE t (k bigint, v bigint, PRIMARY KEY (k));
SELECT create_distributed_table('t', 'k', shard_count => 4);

-- Where no task has a row there is no group of a key, and one group without keys.
SELECT v, count(*) FROM t GROUP BY v;
SELECT count(*) FROM t;
INSERT INTO t VALUES (1, 10), (2, 20), (3, 30), (4, 40);

-- The first rows in an order come from any task.
SELECT k FROM t ORDER BY v DESC LIMIT 2;

-- Counts and sums of tasks are summed; of their least and greatest values one is taken.
SELECT count(*), sum(v), min(v), max(v) FROM t;

-- Rows of two tasks may be alike, since the distribution column isn't shown: they are grouped again.
SELECT DISTINCT v / 20 AS h FROM t ORDER BY h;
EXPLAIN SELECT DISTINCT v / 20 AS h FROM t ORDER BY h;
