-- CREATE TABLE and SET in forms of the grammar.
CREATE TABLE t (a BIGINT PRIMARY KEY, b INTEGER, c INT, d TEXT);
create table t (a bigint, text text, PRIMARY KEY (a, text));
create table TX (a bigint, text text, PRIMARY KEY (a, text));
create table Shops(A bigint primary key,b INT , c integer,d text);
select create_distributed_table('shops','a',shard_count=>4,colocate_with=>'none');
select create_distributed_table('Shops','a');
SET citus.shard_count TO 32;
set Citus.Shard_Count=7;
SET citus.enable_repartition_joins = ON;
set citus.enable_repartition_joins to oFF;
SET citus.max_adaptive_executor_pool_size TO 3;
set a.b to OFF;
