-- Upper and lower case, blanks anywhere, and semicolons in comments and texts.

-- a table; to begin with
Create TABLE "t (k bigint);
create table T(K BIGINT,V Bigint,primary key(K)) ;
select create_distributed_table ( 't' , 'k' , SHARD_COUNT=>4 );--;
Insert Into T -- the row;
Values ( 1 , -10 );select * from T where K=1;SELECT * FROM t WHERE k = 'a;b'
