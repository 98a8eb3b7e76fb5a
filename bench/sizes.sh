#!/bin/sh
# How long reads, INSERTs, UPDATEs and DELETEs by the key take, as many of each, in one shard of 10,000 rows and of 100,000, in citus_run, sqlite3 and
# psql: that they don't grow with the table. One statement of each kind runs before, since the first may build an index.
# Usage: bench/sizes.sh [statements of each kind, 4900 if left out, and at most]
set -eu
top=$(cd "$(dirname "$0")/.." && pwd)
. "$top/bench/common.sh"
statements=${1:-4900}

on_table 't (k bigint, v bigint, PRIMARY KEY (k))' "SELECT create_distributed_table('t', 'k', shard_count => 1)"

# So many thousand rows with even keys, and one statement of each kind.
rows() {
    awk -v thousands="$1" 'BEGIN {
        for (b = 0; b < thousands; b++) {
            printf "INSERT INTO t VALUES "
            for (j = 1; j <= 1000; j++) { i = b * 1000 + j; printf "%s(%d, %d)", (j > 1 ? ", " : ""), 2 * i, i }
            print ";"
        }
        print "INSERT INTO t VALUES (1, 1);\nUPDATE t SET v = 2 WHERE k = 1;\nDELETE FROM t WHERE k = 1;\nSELECT v FROM t WHERE k = 2;"
    }'
}

# A statement for keys that lie all over the table. Words: thousands of rows, and a format that takes a key.
for_keys() {
    awk -v rows="$1" -v n="$statements" -v format="$2" 'BEGIN {
        for (i = 1; i <= n; i++) printf format ";\n", 2 * (1 + (i * 7919) % (1000 * rows))
    }'
}

prepare
for thousands in 10 100; do
    rows "$thousands" >"$work/rows"
    {
        for_keys "$thousands" 'SELECT v FROM t WHERE k = %d'
        for_keys "$thousands" 'INSERT INTO t VALUES (1 + %d, 0)'
        for_keys "$thousands" 'UPDATE t SET v = v + 1 WHERE k = %d'
        for_keys "$thousands" 'DELETE FROM t WHERE k = %d'
    } >"$work/statements"
    compare "statements by the key in $thousands,000 rows" "$work/rows" "$work/statements"
done
