-- Tokens that were worked out elsewhere: EXPLAIN names the shard of 128 that holds a key, and so the first seven bits of its token.
CREATE TABLE numbers (k bigint, v bigint);
SELECT create_distributed_table('numbers', 'k', shard_count => 128);
CREATE TABLE texts (k text, v bigint);
SELECT create_distributed_table('texts', 'k', shard_count => 128, colocate_with => 'none');

EXPLAIN SELECT v FROM numbers WHERE k = 0; -- 0: 64
EXPLAIN SELECT v FROM numbers WHERE k = 1; -- -1640531535: 15
EXPLAIN SELECT v FROM numbers WHERE k = 3; -- -626627309: 45
EXPLAIN SELECT v FROM numbers WHERE k = 9223372036854775807; -- 1640531535: 112
EXPLAIN SELECT v FROM texts WHERE k = ''; -- 0: 64
EXPLAIN SELECT v FROM texts WHERE k = 'a'; -- -217768943: 57
EXPLAIN SELECT v FROM texts WHERE k = 'ab'; -- -19203119: 63
