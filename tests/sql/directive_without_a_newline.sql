CREATE TABLE t (k bigint);
-- The last line.
\parallel