-- The tiles of a dashboard, each with its plan: from one shard of one site to all shards of all sites.
SET citus.shard_count TO 4;
CREATE TABLE sites (id bigint PRIMARY KEY, host text);
SELECT create_distributed_table('sites', 'id');
CREATE TABLE hits (site bigint, minute integer, page text, ms integer, PRIMARY KEY (site, minute, page));
SELECT create_distributed_table('hits', 'site', colocate_with => 'sites');
CREATE TABLE pages (page text PRIMARY KEY, team text);
SELECT create_reference_table('pages');
INSERT INTO sites VALUES (1, 'anchor.example'), (2, 'buoy.example'), (3, 'crane.example');
INSERT INTO pages VALUES ('home', 'web'), ('cart', 'shop'), ('help', 'care');
COPY hits FROM STDIN (FORMAT CSV, HEADER);
site,minute,page,ms
1,0,home,12
1,0,cart,48
1,1,home,9
1,2,cart,61
2,0,home,31
2,1,help,
2,2,home,14
3,0,help,20
3,1,cart,90
\.

-- One site: its shard is known from the WHERE, so one task answers.
EXPLAIN SELECT minute, page, ms FROM hits WHERE site = 1 ORDER BY ms DESC LIMIT 2;
SELECT minute, page, ms FROM hits WHERE site = 1 ORDER BY ms DESC LIMIT 2;

-- One site with its name: both tables are cut by the site, so the join is a query of one shard group.
EXPLAIN SELECT s.host, h.page, h.ms FROM sites s JOIN hits h ON h.site = s.id WHERE s.id = 1 AND h.ms > 40 ORDER BY h.ms;
SELECT s.host, h.page, h.ms FROM sites s JOIN hits h ON h.site = s.id WHERE s.id = 1 AND h.ms > 40 ORDER BY h.ms;

-- All sites by minute: a minute lies in several shards, so what the tasks have grouped is grouped once more.
EXPLAIN SELECT minute, count(*) AS hits, max(ms) AS slowest FROM hits GROUP BY minute ORDER BY minute;
SELECT minute, count(*) AS hits, max(ms) AS slowest FROM hits GROUP BY minute ORDER BY minute;

-- All sites by site: each lies in one shard, so the rows of the tasks are the answer's.
EXPLAIN SELECT s.host, t.hits FROM sites s JOIN (SELECT site, count(*) AS hits FROM hits GROUP BY site) t ON t.site = s.id ORDER BY t.hits DESC, s.host;
SELECT s.host, t.hits FROM sites s JOIN (SELECT site, count(*) AS hits FROM hits GROUP BY site) t ON t.site = s.id ORDER BY t.hits DESC, s.host;

-- All sites by team: pages are grouped first, as a subplan, and one task joins its rows with the reference table.
EXPLAIN SELECT p.team, t.hits FROM (SELECT page, count(*) AS hits FROM hits GROUP BY page) t JOIN pages p ON p.page = t.page ORDER BY p.team;
SELECT p.team, t.hits FROM (SELECT page, count(*) AS hits FROM hits GROUP BY page) t JOIN pages p ON p.page = t.page ORDER BY p.team;

-- The busiest minute: the coordinator asks the rows of a CTE alone, and no task is left.
EXPLAIN WITH minutes AS (SELECT minute, count(*) AS hits FROM hits GROUP BY minute) SELECT minute, hits FROM minutes ORDER BY hits DESC, minute LIMIT 1;
WITH minutes AS (SELECT minute, count(*) AS hits FROM hits GROUP BY minute) SELECT minute, hits FROM minutes ORDER BY hits DESC, minute LIMIT 1;

-- Sites beside each other that were slow on the same page: rows that meet lie in different shards, so they have to move.
SET citus.enable_repartition_joins TO on;
EXPLAIN SELECT a.page, a.site, a.minute, b.site AS other_site, b.minute AS other_minute FROM hits a JOIN hits b ON a.page = b.page WHERE a.site < b.site AND a.ms > 40 AND b.ms > 40 ORDER BY a.minute;
SELECT a.page, a.site, a.minute, b.site AS other_site, b.minute AS other_minute FROM hits a JOIN hits b ON a.page = b.page WHERE a.site < b.site AND a.ms > 40 AND b.ms > 40 ORDER BY a.minute;
