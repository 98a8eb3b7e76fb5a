#!/bin/sh
# How long statements of tenants take over 4 shards with many rows each, in citus_run, sqlite3 and psql: single-row INSERTs, the
# tenants in turn; reads of one row by the whole key; aggregates over all rows of a tenant.
# Usage: bench/tenants.sh [tenants, 20 if left out] [rows of each, 400 if left out]
set -eu
top=$(cd "$(dirname "$0")/.." && pwd)
. "$top/bench/common.sh"
tenants=${1:-20}
rows=${2:-400}

on_table 'orders (tenant bigint, id bigint, customer bigint, amount integer, PRIMARY KEY (tenant, id))' \
    "SELECT create_distributed_table('orders', 'tenant', shard_count => 4)"

# A statement for each row, or for so many rounds over the tenants. Words: the rounds, and a format that takes the tenant, the
# round, a customer and an amount.
for_each() {
    awk -v tenants="$tenants" -v rounds="$1" -v format="$2" 'BEGIN {
        for (i = 1; i <= rounds; i++)
            for (t = 1; t <= tenants; t++) printf format ";\n", t, i, (i * 7 + t) % 50, (i * 31 + t) % 1000
    }'
}
for_each "$rows" 'INSERT INTO orders VALUES (%d, %d, %d, %d)' >"$work/inserts"
for_each "$rows" 'SELECT amount FROM orders WHERE tenant = %d AND id = %d' >"$work/reads"
for_each 100 'SELECT count(*), sum(amount), max(amount) FROM orders WHERE tenant = %d AND id >= %d AND customer <> %d' >"$work/aggregates"

prepare
compare 'INSERTs' "$work/nothing" "$work/inserts"
compare 'reads by the key' "$work/inserts" "$work/reads"
compare 'aggregates of a tenant' "$work/inserts" "$work/aggregates"
