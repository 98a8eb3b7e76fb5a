-- Blanks and comments at the front of a statement are dropped, and a semicolon in a text or a comment ends nothing. So each
-- place counts from a statement's first token. What is left after the last semicolon is a statement too.

 	
SELECT 1 ;;
 ; ;INSERT 
2;-- first; 'of
 SELECT ';', 'it''s;' -- ; '
, 2 - 1; -- ;
--
;- -;- 'a--;';b--
;-- nothing; here
 ; --
;
SELECT ';'';-- ''' # -- ;
;last 