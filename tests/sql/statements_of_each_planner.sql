-- Statements of each planner, over empty tables, and moves.

-- Two distributed tables, and one that is not.
CREATE TABLE sales (tenant bigint, id bigint, price bigint, quantity integer, note text, PRIMARY KEY (tenant, id));
SELECT create_distributed_table('sales', 'tenant', shard_count => 4);
CREATE TABLE shops (id bigint PRIMARY KEY, name text);
SELECT create_distributed_table('shops', 'id');
CREATE TABLE loose (id bigint, name text);

-- What is refused, and what isn't.
COPY shops FROM STDIN;
\.
EXPLAIN SELECT id FROM sales WHERE tenant = 1;
SELECT citus_move_shard_placement(102008, 1, 2);
SELECT rebalance_table_shards();
SELECT get_rebalance_table_shards_plan();
SELECT a.id FROM sales a JOIN shops b ON a.tenant = b.id WHERE a.tenant = 1;
SELECT a.id FROM sales a CROSS JOIN shops b WHERE a.tenant = 1;
SELECT id FROM sales WHERE tenant = 1 AND id IN (SELECT id FROM shops WHERE id = 1);
WITH a AS (SELECT id FROM sales WHERE tenant = 1) SELECT id FROM sales WHERE tenant = 1;
WITH a AS (SELECT id FROM sales WHERE tenant = 1) SELECT id FROM a;

-- Each reads more than one shard, or would.
SELECT id FROM sales;
SELECT count(*) FROM sales WHERE id = 1;
SELECT id FROM sales WHERE tenant > 1;
SELECT id FROM sales WHERE tenant = 1 + 0;
SELECT id FROM sales WHERE tenant = - -1;
SELECT id FROM sales WHERE tenant + 0 = 1;
SELECT id FROM sales WHERE tenant = id;
SELECT id FROM sales WHERE NOT tenant <> 1;
SELECT id FROM sales WHERE tenant = 1 OR id = 1;
SELECT id FROM sales WHERE tenant BETWEEN 1 AND 1;
