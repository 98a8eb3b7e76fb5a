-- What a text's bytes and tokens show, at the place of the fault. The last text is not closed.

SELECT 9223372036854775808;SELECT 9223372036854775807;-- from here on
  SELECT k FROM t WHERE ;INSERT INTO t VALUES (1,2;
SELECT foo(1);SELECT create_reference_table('t', 't');UPDATE t SET a = 1, WHERE b = 2;
SELECT # FROM t;SELECT * FROM t WHERE k = ((((((((((((((((((((((((((((((((((((((((((((((((((((((((((((((((1))))))))))))))))))))))))))))))))))))))))))))))))))))))))))))))));
SELECT * FROM t WHERE k = (((((((((((((((((((((((((((((((((((((((((((((((((((((((((((((((((1)))))))))))))))))))))))))))))))))))))))))))))))))))))))))))))))));
SELECT 'a;
