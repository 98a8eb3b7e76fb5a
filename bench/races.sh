#!/bin/sh
# What sessions beside each other cost, in citus_run alone: opening and closing a block over 512 shard groups, and four sessions that write a shard group beside a fifth
# that moves it.
# Usage: bench/races.sh [thousands of rows, 100 if left out] [writes of a session, 5000 if left out]
set -eu
top=$(cd "$(dirname "$0")/.." && pwd)
. "$top/bench/common.sh"
thousands=${1:-100}
writes=${2:-5000}
blocks=500
moves=4

# Puts the best of five times of scripts, in microseconds, into the file `times`, all in one line. They take turns. Words: a file before each of them, and the files.
best_of() {
    before=$1
    shift
    rm -f "$work"/*.best
    for _ in 1 2 3 4 5; do
        for file in "$@"; do
            time_once citus_run "$(basename "$file")" "$before" "$file"
            ! grep -m 1 '^ERROR' "$work/citus_run.out" || fail "$file: an error is answered"
        done
    done
    for file in "$@"; do cat "$work/citus_run.$(basename "$file").best"; done | xargs >"$work/times"
}

# Blocks, each with one read in each of its sessions. Words: how many blocks, and how many sessions each has, 0 for the reads without blocks.
blocks_of() {
    awk -v blocks="$1" -v sessions="$2" 'BEGIN {
        read = "SELECT k FROM k1 WHERE k = 1;"
        for (b = 0; b < blocks; b++) {
            if (sessions == 0) { print read; continue }
            print "\\parallel"
            for (s = 1; s <= sessions; s++) print "\\session " s "\n" read
            print "\\end"
        }
    }'
}

# A block. Words: how many sessions write, how many moves a further one makes.
race() {
    awk -v sessions="$1" -v moves="$2" -v writes="$writes" -v rows="$((thousands * 1000))" 'BEGIN {
        print "\\parallel"
        for (s = 1; s <= sessions; s++) {
            print "\\session " s
            for (i = 0; i < writes; i++) printf "UPDATE events SET ms = ms + 1 WHERE id = %d;\n", ((i * sessions + s) * 7919) % rows + 1
        }
        print "\\session " sessions + 1
        for (m = 0; m < moves; m++) printf "SELECT citus_move_shard_placement(102008, %d, %d);\n", m % 2 + 1, 2 - m % 2
        print "\\end"
        print "SELECT count(*), sum(ms) FROM events;"
    }'
}

"$top/run.sh" --proved "$work/nothing" >"$work/log" 2>&1 || { cat "$work/log"; exit 1; }

for table in k1 k2 k3 k4; do on_table "$table (k bigint PRIMARY KEY)" "SELECT create_distributed_table('$table', 'k', shard_count => 128, colocate_with => 'none')"; done
blocks_of "$blocks" 0 >"$work/serial"
blocks_of "$blocks" 1 >"$work/one"
blocks_of "$blocks" 8 >"$work/eight"
best_of "$work/nothing" "$work/serial" "$work/one" "$work/eight"
awk -v blocks="$blocks" '{
    printf "a block over 512 shard groups, opened and closed: %d microseconds for one session, %d for eight, with seven further reads\n", ($2 - $1) / blocks, ($3 - $1) / blocks
}' "$work/times"

rm -f "$work"/*.head
on_table 'events (id bigint PRIMARY KEY, ms integer)' "SELECT create_distributed_table('events', 'id', shard_count => 1)"
awk -v rows="$((thousands * 1000))" 'BEGIN { print "COPY events FROM STDIN;"; for (i = 1; i <= rows; i++) print i "\t" (i * 31) % 5003; print "\\." }' >"$work/rows"
race 0 0 >"$work/nobody"
race 4 0 >"$work/writers"
race 0 "$moves" >"$work/mover"
race 4 "$moves" >"$work/both"
best_of "$work/rows" "$work/nobody" "$work/writers" "$work/mover" "$work/both"
awk -v moves="$moves" -v all="$((4 * writes))" -v thousands="$thousands" '{
    printf "a group of %d,000 rows: moved in %.1f milliseconds\n", thousands, ($3 - $1) / moves / 1000
    printf "four sessions that write it: %d statements in a second, beside %d moves %d\n", all / ($2 - $1) * 1000000, moves, all / ($4 - $1) * 1000000
}' "$work/times"
