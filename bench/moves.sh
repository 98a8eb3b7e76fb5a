#!/bin/sh
# How long a shard group takes to move to another node and back, in citus_run; in sqlite3 and psql, which have one node, the table's rows are copied into a new
# table with its key, twice. Once with half as many rows, so that one sees how the time grows. The moved rows are compared.
# Usage: bench/moves.sh [thousands of rows, 100 if left out]
set -eu
top=$(cd "$(dirname "$0")/.." && pwd)
. "$top/bench/common.sh"
thousands=${1:-100}

on_table 'events (customer bigint, id bigint, page text, ms integer, PRIMARY KEY (customer, id))' "SELECT create_distributed_table('events', 'customer', shard_count => 1)"

# The statements that put rows in. Words: thousands of rows.
inserts() {
    awk -v rows="$(($1 * 1000))" 'BEGIN {
        for (i = 1; i <= rows; i++) {
            printf "%s(%d, %d, '"'page %d'"', %d)", (i % 1000 == 1 ? "INSERT INTO events VALUES " : ", "), (i * 7919) % 2000, i, (i * 31) % 1000, (i * 104729) % 5003
            if (i % 1000 == 0) print ";"
        }
    }'
}

# One copy of the table in its place. Words: a name for its key.
copy() {
    echo 'CREATE TEMPORARY TABLE copied AS SELECT * FROM events;'
    echo "CREATE UNIQUE INDEX $1 ON copied (customer, id);"
    echo 'DROP TABLE events;'
    echo 'ALTER TABLE copied RENAME TO events;'
    echo 'SELECT count(*), 0, 0 FROM events;'
}
sums='SELECT count(*), sum(customer), sum(ms), max(id) FROM events;'
{ copy there; copy back; echo "$sums"; } >"$work/moves"
{
    echo 'SELECT citus_move_shard_placement(102008, 1, 2);'
    echo 'SELECT citus_move_shard_placement(102008, 2, 1);'
    echo "$sums"
} >"$work/moves.citus_run"

prepare
for rows in "$((thousands / 2))" "$thousands"; do
    inserts "$rows" >"$work/inserts"
    compare "moves of $rows,000 rows" "$work/inserts" "$work/moves"
done
