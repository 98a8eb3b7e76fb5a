-- The text that a quote keeps open to the end of the script is a statement too.
SELECT 'a;