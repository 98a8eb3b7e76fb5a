#!/bin/sh
# How long the statements of a parallel block take, divided among 1, 2 and 4 sessions, each with the rows of a tenant of its own, whose shard group no other
# session reaches, or all with those of one tenant: single-row INSERTs, reads by the whole key, aggregates of the tenant. In citus_run a block; in psql as many
# connections; in sqlite3, whose time for them is the unit, one after the other.
# Usage: bench/blocks.sh [INSERTs and reads, 8000 if left out] [aggregates, 2000 if left out] [rows of each tenant before, 500 if left out]
set -eu
top=$(cd "$(dirname "$0")/.." && pwd)
. "$top/bench/common.sh"
statements=${1:-8000}
aggregates=${2:-2000}
rows=${3:-500}

# Connections share a table only where it isn't temporary.
table='orders (tenant bigint, id bigint, amount integer, PRIMARY KEY (tenant, id))'
echo "CREATE TABLE $table;" >"$work/sqlite3.head"
{ echo 'SET client_min_messages = warning;'; echo 'DROP TABLE IF EXISTS orders;'; echo "CREATE UNLOGGED TABLE $table;"; } >"$work/psql.head"
{ echo "CREATE TABLE $table;"; echo "SELECT create_distributed_table('orders', 'tenant', shard_count => 4);"; } >"$work/citus_run.head"

# What stands outside sessions goes to one connection; of the sessions each goes to one of its own.
run_psql() {
    rm -f "$work"/part.*
    awk -v part="$work/part." 'BEGIN { at = "0" } /^\\parallel|^\\end/ { at = "z"; next } /^\\session/ { at = $2; next } { print > (part at) }'
    for part in "$work"/part.*; do
        case $part in
            *.[1-8]) connect <"$part" >"$part.out" & ;;
            *.z) wait; connect <"$part" >"$part.out" ;;
            *) connect <"$part" >"$part.out" ;;
        esac
    done
    wait
    cat "$work"/part.*.out
}
connect() { psql -X -q -A -t -P 'null=\N' -v ON_ERROR_STOP=1 -h "$work" -U postgres; }

# The tenant of each of the four shard groups: the least number whose token lies there (Citus documentation, "Determining the shard placement").
tenants=$(awk 'BEGIN {
    for (k = 1; found < 4; k++) {
        token = (k * 2654435761) % 4294967296
        if (token >= 2147483648) token -= 4294967296
        group = int((token + 2147483648) / 1073741824)
        if (!(group in of)) { of[group] = k; found++ }
    }
    print of[0], of[1], of[2], of[3]
}')

# The statements of so many sessions, with the directives of a block, and for sqlite3 without them. Words: the file, the sessions, whether all have the
# first tenant (1) or each its own (0), how many statements in all, and a format that takes a tenant and an id.
block() {
    awk -v sessions="$2" -v same="$3" -v all="$4" -v format="$5" -v tenants="$tenants" -v rows="$rows" 'BEGIN {
        split(tenants, tenant, " ")
        print "\\parallel"
        for (s = 1; s <= sessions; s++) {
            print "\\session " s
            for (i = 0; i < all / sessions; i++) printf format ";\n", tenant[same ? 1 : s], (format ~ /^INSERT/ ? rows + 1 + i * sessions + s : 1 + (i * 31 + s) % rows), i % 1000
        }
        print "\\end"
    }' >"$1"
    grep -v '^\\' "$1" >"$1.sqlite3"
}

awk -v rows="$rows" -v tenants="$tenants" 'BEGIN {
    split(tenants, tenant, " ")
    for (t = 1; t <= 4; t++) for (i = 1; i <= rows; i++) printf "INSERT INTO orders VALUES (%d, %d, %d);\n", tenant[t], i, (i * 31 + t) % 1000
}' >"$work/before"

prepare
for same in 0 1; do
    for sessions in 1 2 4; do
        if [ "$same" -eq 0 ]; then where='a group of its own each'; else where='one group'; fi
        block "$work/inserts" "$sessions" "$same" "$statements" 'INSERT INTO orders VALUES (%d, %d, %d)'
        block "$work/reads" "$sessions" "$same" "$statements" 'SELECT amount FROM orders WHERE tenant = %d AND id = %d'
        block "$work/aggregates" "$sessions" "$same" "$aggregates" 'SELECT count(*), sum(amount), max(amount) FROM orders WHERE tenant = %d AND id >= %d'
        compare "$sessions sessions, $where: INSERTs" "$work/before" "$work/inserts"
        compare "$sessions sessions, $where: reads by the key" "$work/before" "$work/reads"
        compare "$sessions sessions, $where: aggregates" "$work/before" "$work/aggregates"
    done
done
