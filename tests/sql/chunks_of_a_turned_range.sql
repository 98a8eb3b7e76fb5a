SELECT 1; -- no byte of the input is read
