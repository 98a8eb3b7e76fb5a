-- COPY in CSV: what its records and fields stand for.

CREATE TABLE t (k bigint, i integer, s text, PRIMARY KEY (k));
SELECT create_distributed_table('t', 'k', shard_count => 4);

-- A field in quotes may have commas, quotes and lines in it. Numbers may stand in quotes, and have spaces around them.
COPY t FROM STDIN (FORMAT CSV);
1,10,one
2,-20,"two, with a comma"
"3","+30","a ""quoted"" word"
4,40,"two
lines, and
"
5, 50 , five 
" 6 "," 60 "," six "
\.
SELECT * FROM t WHERE k <= 6 ORDER BY k;

-- Quotes inside a field stand for themselves; what follows a closing quote belongs to the field.
COPY t FROM STDIN (FORMAT CSV);
7,70,seven" or "more
8,80,"eight" or more
9,90,'nine'
\.
SELECT s FROM t WHERE k BETWEEN 7 AND 9 ORDER BY k;

-- An empty field is NULL, also in quotes. \N and backslashes are texts.
COPY t FROM STDIN (FORMAT CSV);
10,,
11,"",""
12,1,\N
13,2,a\tb\\c
14,3,NULL
\.
SELECT * FROM t WHERE k BETWEEN 10 AND 14 ORDER BY k;

-- Blank lines are no records.
COPY t FROM STDIN (FORMAT CSV);

15,1,a


16,2,b

\.
SELECT * FROM t WHERE k IN (15, 16) ORDER BY k;

-- HEADER passes over the first record, whatever it has.
COPY t FROM STDIN (FORMAT CSV, HEADER);
k,i,s
17,,seventeen
18,180,eighteen
\.
COPY t (s, k) FROM STDIN WITH (HEADER, FORMAT CSV);

"one header
of two lines",2,3,4,5
nineteen,19
\.
COPY t FROM STDIN (FORMAT CSV, HEADER);
k,i,s
\.
COPY t FROM STDIN (FORMAT CSV, HEADER);
\.
COPY t FROM STDIN (FORMAT CSV);
\.
SELECT * FROM t WHERE k BETWEEN 17 AND 19 ORDER BY k;

-- \. inside a field is a part of it; as a line by itself it ends the data, also within quotes. A quote that is open then ends with it.
COPY t FROM STDIN (FORMAT CSV);
20,1,a\.b
21,2,"\."
22,3,"
 \.
\.."
23,4,"open
\.
SELECT * FROM t WHERE k BETWEEN 20 AND 23 ORDER BY k;

-- Of a table with one column a blank line is no row, and two quotes are NULL.
CREATE TABLE r (s text);
SELECT create_reference_table('r');
COPY r FROM STDIN (FORMAT CSV);
a

""
"b"
#c
\.
SELECT s, count(*) FROM r GROUP BY s ORDER BY s;

-- Lines may end with a carriage return and a newline, or with a carriage return.
COPY t FROM STDIN (FORMAT CSV);
30,1,a
31,2,"b
c"
32,3,d33,4,e
\.
SELECT k, i FROM t WHERE k BETWEEN 30 AND 33 ORDER BY k;
SELECT k FROM t WHERE s = 'b
c';

-- A byte order mark before the first record is passed over.
COPY t FROM STDIN (FORMAT CSV);
﻿40,1,marked
\.
SELECT * FROM t WHERE k = 40;
