-- Bytes that begin no token, and numbers that are too large. These faults go before those of syntax.
a 9223372036854775808;
SELECT 9223372036854775807 FROM t;
SELECT 00009223372036854775808 FROM t;
a ! b;
a "b";
é;
SELECT a FROM t WHERE FROM [;
-- a comment and blanks go before the first token
  	 a ? b;
? 'a
