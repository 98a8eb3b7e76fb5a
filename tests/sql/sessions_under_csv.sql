-- Under --csv tables are CSV in a block too, and the lines of sessions and of ERRORs stay as they are. A block may be one session alone, and follow another at once.
CREATE TABLE t (k bigint PRIMARY KEY, s text);
SELECT create_distributed_table('t', 'k', shard_count => 2);
\parallel
\session 5
INSERT INTO t VALUES (1, 'a,b'), (2, NULL), (3, 'c"d');
SELECT k, s FROM t ORDER BY k;
SELECT nope FROM t;
\end
\parallel
\session 2
SELECT count(*) FROM t;
\session 1
SELECT min(k) AS least, max(k) AS greatest FROM t;
\end
