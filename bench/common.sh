# What the comparisons with sqlite3 and psql share. A script sets `top` to the root of the repository and reads this file; then it
# names its table and compares. All programs run the same statements in one run of the script, over rows in memory. The rows that
# SELECTs answer must be those of sqlite3. Times are printed as ratios to sqlite3's time only.

work=$(mktemp -d)
trap 'rm -rf "$work"' EXIT
trap 'exit 1' INT TERM HUP
: >"$work/nothing"

fail() {
    echo "$0: $1"
    exit 1
}

# A table of the statements. Words: its name and columns, as they stand after CREATE TABLE, and the call that distributes it.
on_table() {
    echo "CREATE TABLE $1;" >>"$work/sqlite3.head"
    echo "CREATE TEMPORARY TABLE $1;" >>"$work/psql.head"
    { echo "CREATE TABLE $1;"; echo "$2;"; } >>"$work/citus_run.head"
}

run_sqlite3() { sqlite3 -bail -nullvalue '\N'; }
run_citus_run() { "$top/crates/citus_run/out/citus_run"; }
run_psql() { psql -X -q -A -t -P 'null=\N' -v ON_ERROR_STOP=1 -h "$work" -U postgres; }

# Starts a server in the work folder, as the user postgres where this is run as root. It ends with the script.
start_server() {
    bin=$(ls -d /usr/lib/postgresql/*/bin 2>/dev/null | tail -n 1)
    command -v psql >/dev/null && [ -n "$bin" ] || return 1
    as_owner=
    if [ "$(id -u)" -eq 0 ]; then
        as_owner='runuser -u postgres --'
        chown postgres "$work" || return 1
    fi
    $as_owner "$bin/initdb" -D "$work/data" -U postgres -A trust || return 1
    trap '$as_owner "$bin/pg_ctl" -D "$work/data" -m immediate stop >/dev/null 2>&1; rm -rf "$work"' EXIT
    $as_owner "$bin/pg_ctl" -D "$work/data" -w -l "$work/server.log" -o "-k $work -h ''" start
}

# Proves and builds the program where needed, and finds out which of the others are there. sqlite3 comes first: its time is the unit.
prepare() {
    command -v sqlite3 >/dev/null || fail 'sqlite3 is not installed, so there is no ratio'
    "$top/run.sh" --proved "$work/nothing" >"$work/log" 2>&1 || { cat "$work/log"; exit 1; }
    programs='sqlite3 citus_run'
    if start_server >"$work/log" 2>&1; then
        programs="$programs psql"
    else
        echo 'psql is left out: PostgreSQL is not installed'
    fi
}

# Runs a program once, and keeps the time in microseconds where it is the best so far. Words: the program, a name for the time, and the files of
# statements that follow its table.
time_once() {
    program=$1
    best=$work/$1.$2.best
    shift 2
    cat "$work/$program.head" "$@" >"$work/script"
    start=$(date +%s%N)
    "run_$program" <"$work/script" >"$work/$program.out"
    took=$((($(date +%s%N) - start) / 1000))
    if [ ! -f "$best" ] || [ "$took" -lt "$(cat "$best")" ]; then
        echo "$took" >"$best"
    fi
}

# The rows that a program answered in its last run. citus_run writes them before their number, an empty one for a distribution, and the moves of a
# rebalance, which the others don't have.
rows_of() {
    case $1 in
        citus_run) awk '
            /^\([0-9]+ rows?\)$/ {
                first = count - substr($1, 2)
                for (i = first; i < count; i++) if (lines[i] != "" && lines[first - 1] !~ /^group\|source\|target/) print lines[i]
                count = 0
                next
            }
            { lines[count++] = $0 }' "$work/$1.out" ;;
        *) cat "$work/$1.out" ;;
    esac
}

# The file of statements as a program takes it: FILE.PROGRAM where that is there, since data are loaded by other commands, else FILE. Words: a
# program, a file.
file_for() {
    if [ -f "$2.$1" ]; then echo "$2.$1"; else echo "$2"; fi
}

# Fails where a program's last run answered an error, or other rows than sqlite3's. Words: a title, the program.
check_rows() {
    rows_of "$2" >"$work/$2.rows"
    ! grep -m 1 '^ERROR' "$work/$2.out" || fail "$1: $2 answers an error"
    cmp -s "$work/sqlite3.rows" "$work/$2.rows" || fail "$1: $2 answers other rows than sqlite3"
}

# Fails where the programs don't answer the same rows. Words: a title, a file of statements, and the file of SELECTs that follows it.
check_same() {
    for program in $programs; do
        cat "$work/$program.head" "$(file_for "$program" "$2")" "$3" | "run_$program" >"$work/$program.out"
        check_rows "$1" "$program"
    done
}

# Prints the programs' times for a file of statements as ratios to sqlite3's, each the best of five runs, in which the programs take turns, so that
# what slows the machine for a while slows all of them. A file of statements runs before them, and its time is taken off. Words: a title, the file
# before, the file that is compared.
compare() {
    rm -f "$work"/*.best
    for _ in 1 2 3 4 5; do
        for program in $programs; do
            first=$(file_for "$program" "$2")
            time_once "$program" before "$first"
            time_once "$program" both "$first" "$(file_for "$program" "$3")"
        done
    done
    line="$1: "
    unit=
    for program in $programs; do
        took=$(($(cat "$work/$program.both.best") - $(cat "$work/$program.before.best")))
        [ "$took" -gt 0 ] || fail "$1: too short to be measured, take more rows"
        check_rows "$1" "$program"
        [ -z "$unit" ] || line="$line, "
        unit=${unit:-$took}
        line="$line$program $(awk -v a="$took" -v b="$unit" 'BEGIN { printf "%.2f", a / b }')"
    done
    echo "$line"
}
