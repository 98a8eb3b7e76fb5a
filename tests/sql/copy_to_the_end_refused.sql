-- Data of a CSV without the line \.; a script whose lines end with a carriage return too has no such line.
CREATE TABLE t (k bigint, s text, PRIMARY KEY (k));
SELECT create_distributed_table('t', 'k', shard_count => 4);
COPY t FROM STDIN (FORMAT CSV);
1,one
2,two
\.
SELECT count(*) FROM t;
