-- A COPY whose data is refused stops the run.
CREATE TABLE t (k bigint, v bigint, PRIMARY KEY (k));
SELECT create_distributed_table('t', 'k', shard_count => 2);
COPY t FROM STDIN;
1	10
x	20
\.
SELECT count(*) FROM t;
