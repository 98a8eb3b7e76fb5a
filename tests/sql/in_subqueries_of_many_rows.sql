-- IN and NOT IN over subqueries of more rows than are looked through one by one, with and without NULL
SET citus.shard_count TO 4;
CREATE TABLE n (k bigint, v bigint, s text);
SELECT create_distributed_table('n', 'k');
INSERT INTO n VALUES (1,1,'a'),(2,2,'b'),(3,3,'c'),(4,4,'d'),(5,5,'e'),(6,6,'f'),(7,7,'g'),(8,8,'h'),(9,9,'i'),(10,10,'j'),(11,NULL,NULL);
CREATE TABLE m (k bigint, v bigint, s text);
SELECT create_distributed_table('m', 'k');
INSERT INTO m VALUES (1,10,'j'),(2,12,'l'),(3,NULL,NULL),(4,-9223372036854775807,''),(5,1,'aa');
SELECT k FROM m WHERE v IN (SELECT v FROM n) ORDER BY k;
SELECT k FROM m WHERE v IN (SELECT v FROM n WHERE v IS NOT NULL) ORDER BY k;
SELECT k FROM m WHERE NOT v IN (SELECT v FROM n) ORDER BY k;
SELECT k FROM m WHERE NOT v IN (SELECT v FROM n WHERE v IS NOT NULL) ORDER BY k;
SELECT k FROM m WHERE s IN (SELECT s FROM n) ORDER BY k;
SELECT k FROM m WHERE NOT s IN (SELECT s FROM n WHERE s IS NOT NULL) ORDER BY k;
SELECT k FROM m WHERE s IN (SELECT s FROM n WHERE v > 100) ORDER BY k;
SELECT k FROM m WHERE NOT v IN (SELECT v FROM n WHERE v > 100) ORDER BY k;
-- where it is unknown a row is in neither
SELECT k FROM m WHERE v IN (SELECT v FROM n) OR NOT v IN (SELECT v FROM n) ORDER BY k;
SELECT k FROM m WHERE v IN (SELECT v FROM n WHERE v > 0) OR NOT v IN (SELECT v FROM n WHERE v > 0) ORDER BY k;
-- equal values more than once, beside a CTE of one column that is a table, too
WITH c AS (SELECT v / 2 AS h FROM n) SELECT count(*) FROM c WHERE h IN (SELECT h FROM c);
WITH c AS (SELECT v / 2 AS h FROM n) SELECT k FROM m JOIN c ON v = h WHERE k IN (SELECT k FROM n) ORDER BY k;
SELECT count(*) FROM n WHERE k IN (SELECT v FROM n) AND NOT k IN (SELECT v + 5 FROM n WHERE v > 0);
