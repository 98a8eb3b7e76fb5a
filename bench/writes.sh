#!/bin/sh
# How long writes of several rows and shards take, and joins of one tenant, over 4 shards, in citus_run, sqlite3 and psql: INSERTs of a row
# of each tenant, UPDATEs and DELETEs of one row by its key, UPDATEs of all rows of a tenant, an UPDATE and a DELETE of half of all rows, and joins of a
# tenant's rows among themselves.
# Usage: bench/writes.sh [tenants, 20 if left out] [rows of each, 500 if left out]
set -eu
top=$(cd "$(dirname "$0")/.." && pwd)
. "$top/bench/common.sh"
tenants=${1:-20}
rows=${2:-500}

on_table 'orders (tenant bigint, id bigint, customer bigint, amount integer, PRIMARY KEY (tenant, id))' \
    "SELECT create_distributed_table('orders', 'tenant', shard_count => 4)"

# A statement for each of so many rounds over the tenants. Words: the rounds, and a format that takes the tenant and the round.
for_each() {
    awk -v tenants="$tenants" -v rounds="$1" -v format="$2" 'BEGIN {
        for (i = 1; i <= rounds; i++) for (t = 1; t <= tenants; t++) printf format ";\n", t, i
    }'
}

awk -v tenants="$tenants" -v rows="$rows" 'BEGIN {
    for (i = 1; i <= rows; i++) {
        printf "INSERT INTO orders VALUES "
        for (t = 1; t <= tenants; t++) printf "%s(%d, %d, %d, %d)", (t > 1 ? ", " : ""), t, i, (i * 7 + t) % 50, (i * 31 + t) % 1000
        print ";"
    }
}' >"$work/inserts"
for_each 400 'UPDATE orders SET amount = amount + 1 WHERE tenant = %d AND id = %d' >"$work/updates"
for_each 10 'UPDATE orders SET amount = amount + 1 WHERE tenant = %d AND id >= %d' >"$work/wide_updates"
for_each 400 'DELETE FROM orders WHERE tenant = %d AND id = %d' >"$work/deletes"
printf 'UPDATE orders SET amount = amount + 1 WHERE id > %d;\nDELETE FROM orders WHERE id <= %d;\n' $((rows / 2)) $((rows / 2)) >"$work/halves"
for_each 400 'SELECT a.amount, b.customer FROM orders a JOIN orders b ON b.tenant = a.tenant AND b.id = a.id WHERE a.tenant = %d AND a.id = %d' \
    >"$work/joins"

prepare
compare "INSERTs of $tenants rows" "$work/nothing" "$work/inserts"
compare 'UPDATEs by the key' "$work/inserts" "$work/updates"
compare 'UPDATEs of a tenant' "$work/inserts" "$work/wide_updates"
compare 'DELETEs by the key' "$work/inserts" "$work/deletes"
compare 'an UPDATE and a DELETE of half' "$work/inserts" "$work/halves"
compare 'joins of a tenant' "$work/inserts" "$work/joins"
