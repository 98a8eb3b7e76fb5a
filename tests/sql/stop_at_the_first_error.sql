-- Under --stop the run ends behind the first ERROR line with status 3. The journals are written all the same.
CREATE TABLE t (k bigint, v bigint, PRIMARY KEY (k));
SELECT create_distributed_table('t', 'k', shard_count => 2);
INSERT INTO t VALUES (1, 10);
INSERT INTO t VALUES (2, 20), (1, 99);
INSERT INTO t VALUES (3, 30);
\no directive is read here
