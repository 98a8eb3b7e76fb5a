-- Blanks, comments and semicolons are no statement.

 
;; 
