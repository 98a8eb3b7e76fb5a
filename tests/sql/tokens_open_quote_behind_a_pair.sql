-- The text ends in two quotes, which stand for one: it is not closed.
'a''
