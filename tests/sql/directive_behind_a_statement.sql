-- It ends with blanks and a carriage return.
CREATE TABLE t (k bigint);
\session 1 	
CREATE TABLE u (k bigint);
