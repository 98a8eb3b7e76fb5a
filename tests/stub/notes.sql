SELECT a FROM t RIGHT JOIN u ON t.k = u.k;
