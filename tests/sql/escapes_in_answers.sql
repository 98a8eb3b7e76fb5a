-- A bar, a backslash and a newline are written as two signs, in a value and in the name of a fault. NULL isn't the
-- text that looks like it, and an empty text isn't NULL.

CREATE TABLE t (k bigint, id bigint, note text, PRIMARY KEY (k, id));
SELECT create_distributed_table('t
ERROR|', 'k');
SELECT create_distributed_table('t', 'k\');
SELECT create_distributed_table('t', 'k', colocate_with => 'a|b');
SELECT create_distributed_table('t', 'k', shard_count => 4);
INSERT INTO t VALUES (1, -7, 'a|b\c
d');
INSERT INTO t VALUES (1, 1, '\N');
INSERT INTO t VALUES (1, 2, NULL);
INSERT INTO t VALUES (1, 10, '');
SELECT id, note FROM t WHERE k = 1 ORDER BY id;
SELECT NULL, note FROM t WHERE k = 1 AND id > 2;
SELECT id FROM t WHERE k = 1 AND id = 0;
