#!/bin/sh
# How long rows take to be loaded into 32 shards, in citus_run, sqlite3 and psql: by COPY of text and of CSV, which in sqlite3 is .import, and by INSERTs
# of 1,000 rows. The rows that were loaded are compared.
# Usage: bench/copy.sh [thousands of rows, 100 if left out]
set -eu
top=$(cd "$(dirname "$0")/.." && pwd)
. "$top/bench/common.sh"
thousands=${1:-100}

on_table 'events (customer bigint, id bigint, page text, ms integer, PRIMARY KEY (customer, id))' "SELECT create_distributed_table('events', 'customer')"

# The rows, with a sign between the fields. Words: the sign.
rows() {
    awk -v rows="$((thousands * 1000))" -v sign="$1" 'BEGIN {
        for (i = 1; i <= rows; i++) print (i * 7919) % 2000 sign i sign "page " (i * 31) % 1000 sign (i * 104729) % 5003
    }'
}
rows '	' >"$work/text.data"
rows , >"$work/csv.data"

# The statements that load a file: for sqlite3 .import, for the others a COPY with the rows below it. Words: a name, sqlite3's mode, the options of COPY.
loads() {
    { echo ".mode $2"; echo ".import $work/$1.data events"; echo '.mode list'; } >"$work/$1.sqlite3"
    { echo "COPY events FROM STDIN $3;"; cat "$work/$1.data"; echo '\.'; } >"$work/$1"
}
loads text tabs ''
loads csv csv '(FORMAT CSV)'
awk -F , '{
    printf "%s(%d, %d, '"'%s'"', %d)", (NR % 1000 == 1 ? "INSERT INTO events VALUES " : ", "), $1, $2, $3, $4
    if (NR % 1000 == 0) print ";"
}' "$work/csv.data" >"$work/inserts"
{
    echo 'SELECT count(*), sum(ms), min(page), max(page) FROM events;'
    echo 'SELECT count(*), sum(customer), sum(ms), max(id) FROM events WHERE page = '"'page 31'"';'
} >"$work/sums"

prepare
check_same 'COPY of text' "$work/text" "$work/sums"
check_same 'COPY of CSV' "$work/csv" "$work/sums"
compare 'COPY of text' "$work/nothing" "$work/text"
compare 'COPY of CSV' "$work/nothing" "$work/csv"
compare 'INSERTs of 1,000 rows' "$work/nothing" "$work/inserts"
