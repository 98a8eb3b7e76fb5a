-- FROM subqueries that tasks compute, each over the tables of its shard group, and ones that are computed over all rows.
CREATE TABLE person (id bigint, town text, PRIMARY KEY (id));
SELECT create_distributed_table('person', 'id', shard_count => 8);
CREATE TABLE visit (person bigint, place bigint, minutes integer);
SELECT create_distributed_table('visit', 'person', colocate_with => 'person');
CREATE TABLE place (id bigint, kind text, PRIMARY KEY (id));
SELECT create_reference_table('place');
INSERT INTO person VALUES (1, 'Ulm'), (2, 'Bern'), (3, 'Graz'), (4, 'Ulm'), (5, 'Bern'), (6, 'Ulm'), (7, NULL), (8, 'Graz'), (9, 'Linz');
INSERT INTO visit VALUES (1, 1, 10), (1, 2, 20), (1, 1, 30), (2, 1, 5), (2, 1, 5), (3, 2, 40), (4, 3, 7), (4, 9, 8), (5, 2, NULL), (6, 1, 60), (6, 3, 2), (6, 3, 2), (8, 2, 11), (77, 1, 3);
INSERT INTO place VALUES (1, 'zoo'), (2, 'pool'), (3, 'zoo'), (4, 'park');
-- Grouped by the distribution column.
SELECT v.person, v.n, v.total FROM (SELECT person, count(*) AS n, sum(minutes) AS total FROM visit GROUP BY person) v ORDER BY 1;
SELECT count(*), sum(v.n), min(v.total), max(v.total) FROM (SELECT person, count(*) AS n, sum(minutes) AS total FROM visit GROUP BY person) v;
SELECT v.n, count(*) FROM (SELECT person, count(*) AS n FROM visit GROUP BY person) v GROUP BY v.n ORDER BY 1;
SELECT max(v.longest) FROM (SELECT place, person, max(minutes) AS longest FROM visit GROUP BY place, person HAVING count(*) > 1) v;
SELECT sum(v.n) FROM (SELECT person, count(*) AS n FROM visit GROUP BY person) v WHERE v.n > 1 AND v.person < 7;
-- With DISTINCT.
SELECT d.person, d.place FROM (SELECT DISTINCT person, place FROM visit) d ORDER BY 1, 2;
SELECT count(*) FROM (SELECT DISTINCT place, person FROM visit) d;
SELECT DISTINCT d.place FROM (SELECT DISTINCT person, place FROM visit WHERE minutes > 4) d ORDER BY 1;
-- Rows alone, with an order that changes nothing.
SELECT sum(r.twice) FROM (SELECT person, minutes * 2 AS twice FROM visit WHERE minutes > 5 ORDER BY minutes) r;
SELECT a.person FROM (SELECT person FROM visit) a, (SELECT id FROM person) b WHERE a.person = b.id ORDER BY 1;
-- Joined with co-located tables and subqueries.
SELECT p.id, p.town, v.n FROM person p JOIN (SELECT person, count(*) AS n FROM visit GROUP BY person) v ON p.id = v.person ORDER BY 1;
SELECT DISTINCT x.town FROM (SELECT p.id, p.town, v.n FROM person p JOIN (SELECT person, count(*) AS n FROM visit GROUP BY person) v ON p.id = v.person) x WHERE x.n > 1 ORDER BY 1;
SELECT p.id, v.n FROM person p LEFT JOIN (SELECT person, count(*) AS n FROM visit GROUP BY person) v ON p.id = v.person ORDER BY 1;
SELECT x.id, x.n FROM (SELECT p.id, v.n FROM person p LEFT JOIN (SELECT person, count(*) AS n FROM visit GROUP BY person HAVING count(*) > 2) v ON p.id = v.person) x WHERE x.id < 5 ORDER BY 1;
SELECT v.person, p.town FROM (SELECT DISTINCT person FROM visit) v LEFT JOIN person p ON v.person = p.id ORDER BY 1;
SELECT a.person, a.n, b.longest FROM (SELECT person, count(*) AS n FROM visit GROUP BY person) a JOIN (SELECT person, max(minutes) AS longest FROM visit GROUP BY person) b ON a.person = b.person ORDER BY 1;
SELECT x.id, x.place FROM (SELECT p.id, v.place FROM person p LEFT JOIN visit v ON p.id = v.person WHERE p.town = 'Ulm') x ORDER BY 1, 2;
-- Nested.
SELECT max(y.n) FROM (SELECT x.person, count(*) AS n FROM (SELECT DISTINCT person, place FROM visit) x GROUP BY x.person) y;
SELECT p.town, y.n FROM person p, (SELECT w.person, count(*) AS n FROM (SELECT person, place FROM visit WHERE minutes > 5) w GROUP BY w.person) y WHERE y.person = p.id ORDER BY 1, 2;
SELECT count(*) FROM (SELECT z.person FROM (SELECT y.person FROM (SELECT person, count(*) FROM visit GROUP BY person) y) z) w;
-- With reference tables.
SELECT DISTINCT x.kind FROM (SELECT v.person, k.kind, v.n FROM (SELECT person, place, count(*) AS n FROM visit GROUP BY person, place) v JOIN place k ON v.place = k.id) x ORDER BY 1;
SELECT w.person, w.kind FROM (SELECT DISTINCT v.person, k.kind FROM visit v JOIN place k ON v.place = k.id) w WHERE w.person < 9 ORDER BY 1, 2;
SELECT p.id FROM person p JOIN (SELECT id FROM place) k ON p.id = k.id ORDER BY 1;
SELECT p.id, g.n FROM person p JOIN (SELECT f.kind, count(*) AS n FROM (SELECT id, kind FROM place) f GROUP BY f.kind) g ON p.id = g.n + 1 ORDER BY 1, 2;
SELECT p.id, k.kind FROM person p LEFT JOIN (SELECT id, kind FROM place WHERE kind = 'zoo') k ON p.id = k.id ORDER BY 1;
SELECT p.id, k.kind FROM person p JOIN (SELECT kind, id FROM place ORDER BY id DESC, kind LIMIT 3) k ON p.id = k.id ORDER BY 1;
-- Not by tasks: grouped by another column, without the distribution column among the outputs, with LIMIT, joined by another column.
SELECT x.place, x.n FROM (SELECT place, count(*) AS n FROM visit GROUP BY place) x ORDER BY 1;
SELECT max(x.n) FROM (SELECT town, count(*) AS n FROM person GROUP BY town) x;
SELECT count(*) FROM (SELECT DISTINCT place FROM visit) x;
SELECT sum(x.minutes) FROM (SELECT minutes FROM visit WHERE minutes < 10) x;
SELECT count(*), min(x.person) FROM (SELECT person FROM visit ORDER BY person DESC LIMIT 5) x;
SELECT x.n FROM (SELECT count(*) AS n FROM visit) x;
SELECT p.id, x.n FROM person p JOIN (SELECT place, count(*) AS n FROM visit GROUP BY place) x ON p.id = x.place ORDER BY 1;
SELECT k.id, x.n FROM place k LEFT JOIN (SELECT person, count(*) AS n FROM visit GROUP BY person) x ON k.id = x.person ORDER BY 1;
-- Only some shard groups.
SELECT v.person, v.n FROM (SELECT person, count(*) AS n FROM visit GROUP BY person) v WHERE v.person IN (1, 2, 6) ORDER BY 1;
SELECT p.town, v.n FROM person p JOIN (SELECT person, count(*) AS n FROM visit WHERE person IN (1, 2, 3, 4) GROUP BY person) v ON p.id = v.person ORDER BY 1, 2;
