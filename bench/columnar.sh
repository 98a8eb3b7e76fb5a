#!/bin/sh
# How long statements take over rows in chunks by columns (--columnar), as ratios to the time over rows in memory, and how much memory the program takes for rows of
# five numbers in each. Both answer the same.
# Usage: bench/columnar.sh [thousands of rows, 100 if left out] [thousands of rows whose memory is measured, 1000 if left out]
set -eu
top=$(cd "$(dirname "$0")/.." && pwd)
. "$top/bench/common.sh"
thousands=${1:-100}
measured=${2:-1000}

run_columnar() { "$top/crates/citus_run/out/citus_run" --columnar; }

# Fails where the last runs answered otherwise, or an error. Words: a title.
check_rows() {
    ! grep -m 1 '^ERROR' "$work/citus_run.out" || fail "$1: an error is answered"
    cmp -s "$work/citus_run.out" "$work/columnar.out" || fail "$1: the answers differ"
}

# The data of a COPY. Words: thousands of rows, how many columns stand behind the key.
rows_of_data() {
    echo 'COPY events FROM STDIN WITH (FORMAT csv);'
    awk -v rows="$(($1 * 1000))" -v more="$2" 'BEGIN {
        for (i = 1; i <= rows; i++) {
            printf "%d", i
            for (c = 1; c <= more; c++) printf ",%d", (i * c) % 10
            print ""
        }
    }'
    echo '\.'
}

# A statement for each of so many keys. Words: how many, a format that takes the key.
for_keys() {
    awk -v count="$1" -v rows="$((thousands * 1000))" -v format="$2" 'BEGIN { for (i = 1; i <= count; i++) printf format ";\n", (i * 7919) % rows + 1 }'
}

# The greatest memory, in MiB, that the program takes for a script. Words: the script, the program's words.
memory_of() {
    python3 - "$top/crates/citus_run/out/citus_run" "$@" <<'END'
import resource, subprocess, sys
program, script, *words = sys.argv[1:]
subprocess.run([program] + words, stdin=open(script, 'rb'), stdout=subprocess.DEVNULL, check=True)
print(resource.getrusage(resource.RUSAGE_CHILDREN).ru_maxrss // 1024)
END
}

"$top/run.sh" --proved "$work/nothing" >"$work/log" 2>&1 || { cat "$work/log"; exit 1; }
programs='citus_run columnar'
columns='a bigint, b bigint, c bigint, d bigint, e bigint, f bigint, g bigint, h bigint, i bigint'
on_table "events (k bigint PRIMARY KEY, $columns)" "SELECT create_distributed_table('events', 'k', shard_count => 4)"
cp "$work/citus_run.head" "$work/columnar.head"
rows_of_data "$thousands" 9 >"$work/rows"
for _ in 1 2 3 4 5 6 7 8 9 10; do echo 'SELECT sum(c) FROM events;'; done >"$work/sums"
for_keys 100 'SELECT * FROM events WHERE k = %d' >"$work/reads"
for_keys 100 'UPDATE events SET a = a + 1 WHERE k = %d' >"$work/updates"
compare "COPY of $thousands,000 rows of ten numbers" "$work/nothing" "$work/rows"
compare 'aggregates over one column of ten' "$work/rows" "$work/sums"
compare 'reads by the key' "$work/rows" "$work/reads"
compare 'UPDATEs of one row' "$work/rows" "$work/updates"

{
    echo 'CREATE TABLE events (k bigint, a bigint, b bigint, c bigint, d bigint);'
    echo "SELECT create_distributed_table('events', 'k', shard_count => 4);"
    rows_of_data "$measured" 4
} >"$work/five"
echo "memory of $measured,000 rows of five numbers: rows in memory $(memory_of "$work/five") MiB, in chunks $(memory_of "$work/five" --columnar) MiB"
