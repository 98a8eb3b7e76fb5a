-- What a user of PostgreSQL would trip over.
SELECT a FROM t RIGHT JOIN u ON t.k = u.k; SELECT a FROM t AS  right JOIN u ON t.k = u.k;
SELECT a FROM t full outer
    join u ON t.k = u.k -- natural join
    WHERE a = 'NATURAL JOIN';
/* it is closed */ SELECT 1 FROM t;
COPY t TO STDOUT;
1
\.
COPY t FROM STDIN;
2
\.
COPY t FROM STDIN;
3
SELECT 1 FROM t;
