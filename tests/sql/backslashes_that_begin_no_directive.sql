-- A backslash that isn't the first byte of its line, or within a statement, is a byte that begins no token.
CREATE TABLE t (k bigint, s text);
SELECT create_distributed_table('t', 'k', shard_count => 2);
 \parallel;
SELECT 1; \end;
SELECT k
\end
FROM t;
-- In a text it stands for itself, in a comment for nothing.
INSERT INTO t VALUES (1, '
\parallel
');
SELECT s FROM t -- as here
-- \end
;
--
-- \end
SELECT k FROM t WHERE s = '\';
