-- The script is made from two numbers, and this one isn't read.
SELECT 1;
\end
