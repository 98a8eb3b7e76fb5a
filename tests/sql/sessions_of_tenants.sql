-- Each session of a block writes and reads a tenant of its own, so whichever comes first the answers are these. A write that is refused for its rows has its entry
-- and leaves the session's other writes.
CREATE TABLE accounts (tenant bigint, id bigint, cents integer, PRIMARY KEY (tenant, id));
SELECT create_distributed_table('accounts', 'tenant', shard_count => 8);
CREATE TABLE rates (code text PRIMARY KEY, percent integer);
SELECT create_reference_table('rates');
INSERT INTO rates VALUES ('low', 1), ('high', 20);
INSERT INTO accounts VALUES (1, 1, 100), (2, 1, 200), (3, 1, 300);
\parallel
\session 3
UPDATE accounts SET cents = cents + 1 WHERE tenant = 3;
SELECT id, cents FROM accounts WHERE tenant = 3 ORDER BY id;
\session 1
INSERT INTO accounts VALUES (1, 2, 50), (1, 3, 75);
INSERT INTO accounts VALUES (1, 4, 1), (1, 2, 9);
SELECT count(*), sum(cents) FROM accounts WHERE tenant = 1;
\session 2
DELETE FROM accounts WHERE tenant = 2 AND id = 1;
COPY accounts FROM STDIN (FORMAT CSV);
2,7,70
2,8,80
\.
SELECT a.id, a.cents, r.percent FROM accounts a CROSS JOIN rates r WHERE a.tenant = 2 AND r.code = 'high' ORDER BY a.id;
\session 1
UPDATE accounts SET cents = cents + 2147483600 WHERE tenant = 1 AND id = 3;
SELECT id, cents FROM accounts WHERE tenant = 1 ORDER BY id;
\end
SELECT tenant, count(*) AS placed, sum(cents) AS total FROM accounts GROUP BY tenant ORDER BY tenant;
