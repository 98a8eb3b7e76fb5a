SELECT k FORM t;
-- prints ERROR 4 syntax at 9
INSERT INTO t VALUES (1);
-- prints INSERT 0 1
INSERT INTO t VALUES (1);
-- prints ERROR 30 duplicate key
