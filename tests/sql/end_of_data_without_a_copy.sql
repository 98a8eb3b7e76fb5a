CREATE TABLE t (k bigint);
INSERT INTO t VALUES (1);
\.
CREATE TABLE u (k bigint);
