#!/bin/sh
# How long single-row INSERTs and reads by the key take over 128 shards with few rows each, in citus_run, sqlite3 and psql.
# Usage: bench/first_path.sh [rows, 9990 if left out]
set -eu
top=$(cd "$(dirname "$0")/.." && pwd)
. "$top/bench/common.sh"
rows=${1:-9990}

on_table 't (k bigint, v bigint, PRIMARY KEY (k))' "SELECT create_distributed_table('t', 'k', shard_count => 128)"
awk -v rows="$rows" 'BEGIN {
    for (k = 1; k <= rows; k++) printf "INSERT INTO t VALUES (%d,%d);\n", k, 10 * k
    for (k = 1; k <= rows; k++) printf "SELECT * FROM t WHERE k = %d;\n", k
}' >"$work/statements"

prepare
compare 'INSERTs and reads by the key' "$work/nothing" "$work/statements"
