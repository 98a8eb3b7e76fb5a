#!/bin/sh
# How long a dashboard's statements take over 32 shards, in citus_run, sqlite3 and psql: INSERTs of 1,000 rows; aggregates over all rows; groups by
# 1,000 pages; a join of 20,000 events with 2,000 customers that lie beside them; the greatest row.
# Usage: bench/dashboard.sh [thousands of rows, 100 if left out]
set -eu
top=$(cd "$(dirname "$0")/.." && pwd)
. "$top/bench/common.sh"
thousands=${1:-100}

on_table 'events (customer bigint, id bigint, page bigint, ms integer, PRIMARY KEY (customer, id))' "SELECT create_distributed_table('events', 'customer')"
on_table 'customers (id bigint PRIMARY KEY, name text)' "SELECT create_distributed_table('customers', 'id', colocate_with => 'events')"

awk -v thousands="$thousands" 'BEGIN {
    for (b = 0; b < thousands; b++) {
        printf "INSERT INTO events VALUES "
        for (j = 1; j <= 1000; j++) {
            i = b * 1000 + j
            printf "%s(%d, %d, %d, %d)", (j > 1 ? ", " : ""), (i * 7919) % 2000, i, (i * 31) % 1000, (i * 104729) % 5003
        }
        print ";"
    }
}' >"$work/inserts"
awk 'BEGIN {
    printf "INSERT INTO customers VALUES "
    for (i = 0; i < 2000; i++) printf "%s(%d, '"'name %d'"')", (i > 0 ? ", " : ""), i, i
    print ";"
}' >"$work/customers"
cat "$work/inserts" "$work/customers" >"$work/all"

# A statement so many times. Words: how many times, and the statement.
repeat() {
    awk -v n="$1" -v text="$2" 'BEGIN { for (i = 1; i <= n; i++) print text ";" }'
}
repeat 40 'SELECT count(*), sum(ms), max(ms) FROM events' >"$work/aggregates"
repeat 30 'SELECT count(*), max(s.n), sum(s.total) FROM (SELECT page, count(*) AS n, sum(ms) AS total FROM events GROUP BY page) s' >"$work/groups"
repeat 30 'SELECT e.ms, e.id, c.name FROM events e JOIN customers c ON e.customer = c.id WHERE e.id <= 20000 ORDER BY e.ms DESC, e.id LIMIT 1' >"$work/joins"
repeat 100 'SELECT id, ms FROM events ORDER BY ms DESC, id LIMIT 1' >"$work/greatest"

prepare
compare 'INSERTs of 1,000 rows' "$work/nothing" "$work/inserts"
compare 'aggregates over all rows' "$work/all" "$work/aggregates"
compare 'groups by page' "$work/all" "$work/groups"
compare 'joins with customers' "$work/all" "$work/joins"
compare 'the greatest row' "$work/all" "$work/greatest"
