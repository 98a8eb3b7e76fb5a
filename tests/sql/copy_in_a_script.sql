-- What follows a statement whose first word is COPY is its data, up to the line \. and whatever the statement is.

CREATE TABLE t (k bigint, v bigint, PRIMARY KEY (k));
SELECT create_distributed_table('t', 'k', shard_count => 4);
CREATE TABLE l (k bigint);

-- In any spelling, over lines, behind comments. The rest of its last line may have blanks.
copy t from stdin;
1	10
\.
  -- A comment before it.
  -- And another; with a semicolon and a 'quote.
CoPy
  t (k, -- the key;
     v)
FROM STDIN 	;  	 
2	20
\.
COPY t FROM STDIN;
3	30
\.
COPY--
t FROM STDIN;
4	40
\.
SELECT 'one' AS a FROM t WHERE k = 1; COPY t FROM STDIN;
5	50
\.
SELECT * FROM t ORDER BY k;

-- A COPY of an unknown or a local table, or of unknown columns: its data is passed over, statements in it too.
COPY nope FROM STDIN;
6	60
INSERT INTO t VALUES (6, 60);
\.
COPY l FROM STDIN;
7	70
DELETE FROM t;
\.
COPY t (k, w) FROM STDIN;
8	80
\.
COPY t (k, k) FROM STDIN;
9	90
\.
SELECT count(*) FROM t;

-- So is that of a COPY that is no statement.
COPY;
SELECT count(*) FROM t;
\.
COPY t TO STDOUT;
SELECT count(*) FROM t;
\.
COPY t FROM 'file';
it's data
\.
COPY t FROM STDIN (HEADER);
k	v
\.
COPY "t" FROM STDIN;
'
\.

-- Other words that begin so are no COPY, and have no data.
COPYING t FROM STDIN;
COPY_ t FROM STDIN;
EXPLAIN COPY t FROM STDIN;
(COPY t FROM STDIN);
SELECT 'COPY t FROM STDIN;' AS text FROM t WHERE k = 1;
-- COPY t FROM STDIN;

-- Lines that only look like the end of the data.
COPY t FROM STDIN;
\. 
10	100
\.
COPY t (k) FROM STDIN;
\\.
\.
COPY t FROM STDIN (FORMAT CSV);
\.,100
\.
COPY t FROM STDIN (FORMAT CSV);
10,100
\.
\.
SELECT count(*) FROM t;
