-- A second INSERT of a key is refused, and the first row stays. A key that has no row gives none.

CREATE TABLE t (k bigint, v bigint, PRIMARY KEY (k));
SELECT create_distributed_table('t', 'k', shard_count => 4);
INSERT INTO t VALUES (1,10);
INSERT INTO t VALUES (1,20);
SELECT * FROM t WHERE k = 1;
SELECT * FROM t WHERE k = 5;
select * from T where K = 1;
