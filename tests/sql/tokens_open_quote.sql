-- A text that is not closed: it goes on to the end of the script.
SELECT 'a''b' FROM t;
SELECT 'a;
SELECT 1 FROM t;
