-- A query that groups reads one relation, by its comma, by JOIN or through a CTE. What could be too wide and what
-- divides by 0 is refused before anything runs.

CREATE TABLE t (k bigint, v bigint, PRIMARY KEY (k));
SELECT create_distributed_table('t', 'k', shard_count => 4);
CREATE TABLE u (k bigint, w bigint, PRIMARY KEY (k));
SELECT create_distributed_table('u', 'k', colocate_with => 't');
SELECT v * v * v FROM t;
SELECT v / 0 FROM t;
SELECT count(*) FROM t, u;
WITH j AS (SELECT t.k FROM t JOIN u ON t.k = u.k) SELECT count(*) FROM j;
INSERT INTO t (v) VALUES (1);
