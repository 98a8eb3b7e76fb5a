-- A word that is none of the options: nothing is read.

CREATE TABLE t (k bigint);
