-- Statements of the grammar, of which each is refused for the first table that is not there.
INSERT INTO t VALUES (1, 'x', NULL), (-1, 2 + 3, b);
INSERT INTO t (a, b) VALUES (1, 2);
UPDATE t SET a = a + 1, b = 'x' WHERE c IS NULL IS NOT NULL;
UPDATE t SET a = 1;
DELETE FROM t;
DELETE FROM t WHERE a <> 1 AND NOT b = 2;
COPY t FROM STDIN;
\.
COPY text (csv, header) FROM STDIN (FORMAT TEXT);
\.
COPY t FROM STDIN WITH (HEADER, FORMAT CSV);
\.
EXPLAIN SELECT a FROM t;
EXPLAIN WITH u AS (SELECT a FROM t) SELECT * FROM u;
SELECT create_distributed_table('t', 'a');
SELECT create_distributed_table('t', 'a', shard_count => 8, colocate_with => 'u');
SELECT create_reference_table FROM t;
SELECT create_reference_table.a FROM create_reference_table;
SELECT *, t.*, t.a AS count, 1 FROM t;
SELECT DISTINCT a.key, a.end AS sum FROM t AS a;
WITH u AS (SELECT a FROM t), v AS (SELECT a FROM u) SELECT a FROM v;
SELECT a FROM t u, (SELECT a FROM t) AS v, (SELECT b FROM t) w;
SELECT a FROM t JOIN u ON a = b INNER JOIN v ON a = c LEFT JOIN w ON a = d LEFT OUTER JOIN x ON a = e CROSS JOIN y, z;
SELECT a FROM t WHERE a = 1 GROUP BY a, b HAVING COUNT(*) > 1 ORDER BY a ASC, b DESC, c LIMIT 1 OFFSET 2;
SELECT a FROM t OFFSET 2;
SELECT a FROM t HAVING MAX(a) = 1;
SELECT a FROM t WHERE a OR b AND NOT NOT c;
SELECT a FROM t WHERE a < 1 OR b <= 2 OR c > 3 OR d >= 4 OR e != 5;
SELECT a FROM t WHERE a IN (1, 2) AND b NOT IN (SELECT a FROM u) AND c NOT BETWEEN 1 AND 2 AND d BETWEEN a AND b;
SELECT a IN (1) = b IN (2) FROM t;
SELECT - + - a * 2 / 3 % 4 - (b + 1) FROM t;
SELECT CASE WHEN a THEN 1 WHEN b THEN 2 ELSE 3 END, CASE WHEN a THEN NULL END FROM t;
SELECT COALESCE(a), COALESCE(a, 'x', 0), COUNT(*), COUNT(a), SUM(a + 1), MIN(a), MAX(t.a) FROM t;
insert into t values (1,-2),(NULL,'a');
insert into t(a,b) values (1,2);
update t set a=1,b=a+1 where a=2;
delete from t;
delete from t where not a is not null;
copy t from stdin;
\.
copy t(a,b) from stdin with (header, format csv);
\.
copy t from stdin (format text);
\.
select * from T where K = 1;
explain select distinct t.*,a as b,c from t;
with x as (select a from t),y as (select b from x) select * from y;
select a from t u,(select b from v) as w,(select c from x) y;
select 1 from t join u on a=b inner join v as w on c<>d left join x on e<f;
select 1 from t left outer join u on a!=b cross join v;
select a from t group by a,b having count(*)>=2 order by a,b desc,c asc limit 3 offset 4;
select ((a)) from t where (a or b) and not(c and d) or e;
select a*(b+c)-d/2%3+-+ -e from t;
select case when a then b when c then d else e end from t;
select case when a is null is not null then 1 end from t;
select coalesce(a,b,0),count(a),sum(b),min(c),max(d) from t;
select a from t where b in (1,2,3) and c not in (select d from u);
select a from t where b between 1 and 2 and c not between d and e;
select t.count,u.key as end from t,u where a<=b and c>d;
select 'it''s' as x from t where 'a -- b' = c -- d
;
select text , off from csv where format = header;
