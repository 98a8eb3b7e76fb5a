CREATE TABLE t (k bigint PRIMARY KEY, v bigint);
SELECT create_distributed_table('t', 'k');
\parallel
\session 2
SELECT w FROM t;
\session 1
INSERT INTO t VALUES (1, 10);
SELECT k FROM t WHERE v = 'a';
\end
SELECT nope FROM t;
\parallel
\session 1
SELECT k FROM t;
