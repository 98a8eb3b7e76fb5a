CREATE TABLE t (k bigint);

\d t
CREATE TABLE u (k bigint);
