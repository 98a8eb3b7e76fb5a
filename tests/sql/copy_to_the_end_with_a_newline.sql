-- A newline at the end of the script ends the last row, and begins no other.
CREATE TABLE t (k bigint, s text, PRIMARY KEY (k));
SELECT create_distributed_table('t', 'k', shard_count => 4);
COPY t FROM STDIN;
1	one
2	two
