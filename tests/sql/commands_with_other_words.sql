-- Tables and columns whose names are words of the grammar elsewhere.
CREATE TABLE text (bigint bigint, format integer, header text, off text, csv integer, PRIMARY KEY (bigint, format));
SELECT create_distributed_table('text', 'bigint');
INSERT INTO text VALUES (1, 2, '', 'a', 3);
INSERT INTO text (format, bigint) VALUES (1 + 1, -(-5));
SELECT bigint, format, header, x.off, x.csv FROM text AS x WHERE bigint = 1;
SELECT bigint AS max, x.csv AS min, header AS key, off AS end FROM text AS x WHERE bigint = 5;
CREATE TABLE stdin (bigint bigint, text integer, csv text, off integer, PRIMARY KEY (bigint, off));
SELECT create_distributed_table('stdin', 'off');
INSERT INTO stdin VALUES (1, 2, 'x', 3);
SELECT stdin.text, int.csv FROM stdin AS int WHERE off = 3;
SELECT int.text, int.csv FROM stdin AS int WHERE int.off = 3;
SELECT x.r1 FROM r2 AS x;
