CREATE TABLE t (k bigint);
SELECT create_distributed_table('t', 'k', shard_count => 2);
COPY t
FROM STDIN; COPY t FROM STDIN;
1
\.
