-- Data without the line \. goes on to the end of the script, and its last row needs no newline.
CREATE TABLE t (k bigint, s text, PRIMARY KEY (k));
SELECT create_distributed_table('t', 'k', shard_count => 4);
COPY t FROM STDIN;
1	one
2	SELECT count(*) FROM t;