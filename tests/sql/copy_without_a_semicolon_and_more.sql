-- A COPY without a semicolon takes its data for its text, up to a semicolon in it.
CREATE TABLE t (k bigint, s text, PRIMARY KEY (k));
SELECT create_distributed_table('t', 'k', shard_count => 4);
COPY t FROM STDIN
1	one
\.
SELECT count(*) FROM t;
2	two
\.
SELECT count(*) FROM t;
