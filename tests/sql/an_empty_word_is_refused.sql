-- An empty word is none of those that the program knows: nothing is answered.
CREATE TABLE t (k bigint);
