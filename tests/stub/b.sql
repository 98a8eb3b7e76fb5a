-- another
SELECT 2 FROM b;
