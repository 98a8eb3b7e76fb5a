-- A COPY at the end of the script has no rows.
CREATE TABLE t (k bigint, s text, PRIMARY KEY (k));
SELECT create_distributed_table('t', 'k', shard_count => 4);
COPY t FROM STDIN (FORMAT CSV, HEADER);