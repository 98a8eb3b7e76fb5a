\end
CREATE TABLE t (k bigint);
