-- The end of the script ends a COPY as any statement: what stands below it is its text.
CREATE TABLE t (k bigint, s text, PRIMARY KEY (k));
SELECT create_distributed_table('t', 'k', shard_count => 4);
COPY t FROM STDIN
