SELECT k FORM t;
-- prints ERROR 4 syntax at 9
-- status 3
