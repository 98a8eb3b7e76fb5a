-- Without a group the journals are one line.
CREATE TABLE t (k bigint);
SELECT k FROM t;
