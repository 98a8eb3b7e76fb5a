#!/bin/sh
# Answers SQL scripts by the proved program, or by a trial build where there is none. `./run.sh --help` says how it is called.
# shellcheck disable=SC2317  # for_each_script calls functions by their names
set -eu

usage() {
    cat <<'END'
Usage: ./run.sh [SCRIPT..] [WORD..]

Answers SQL scripts. Scripts and words stand in any order.

  SCRIPT                a file, or - for standard input. Several are answered one after the other, each over empty tables.
                        Without one: what comes through a pipe or from a file by <, else examples/tenants.sql.
  generate NUMBER ROWS  in place of a script: one of so many orders is made from a number
  chunks ROWS A B       in place of a script: of so many rows in chunks those from A to B are counted

  --workers N           the number of nodes, from 1 to 16; 2 where it isn't given
  --repartition         joins whose rows have to move run from the start
  --csv                 tables are written as CSV
  --stop                the run ends behind the first ERROR, with status 3
  --journal             the journals are written at the end
  --columnar            rows are kept in chunks by columns

  --shell               statements are answered as you type them, by the proved program; Ctrl-D ends
  --proved              the program is proved and built first, where that has to be: half an hour to an hour, once
  --help                this text

A proved program answers at once. Where there is none, a trial build without a proof answers, in one to four minutes each time.
Standard output has the bytes of the program alone. Standard error has what a script would trip over, and where each ERROR lies.
The status is that of the program (docs/FORMATS.md), of several scripts the first that isn't 0; 1 where run.sh itself says why.
END
}

top=$(cd "$(dirname "$(readlink -f "$0")")" && pwd)
crate=$top/crates/citus_run
program=$crate/out/citus_run
work=$(mktemp -d)
ticker=
trap 'stop_ticking; rm -rf "$work"' EXIT
trap 'exit 1' INT TERM HUP

say() {
    echo "run.sh: $1" >&2
}

fail() {
    say "$1"
    exit 1
}

# Says why no proved program can answer, or nothing where one can.
lack_of_proof() {
    if [ ! -x "$program" ]; then
        echo 'no proved program stands here yet'
        return
    fi
    newer=$(find "$top/crates.txt" "$top"/crates/*/src "$top"/crates/*/specs "$top"/crates/*/proofs -newer "$program" 2>/dev/null | head -n 1)
    [ -z "$newer" ] || echo "the proved program is older than ${newer#"$top"/}"
}

# Ends where the toolchain isn't there. Words: why it is wanted.
want_toolchain() {
    command -v rt >/dev/null || fail "$1, and the toolchain rt, which makes one, is not on the PATH: see README.md"
}

# Proves and builds the program. What the toolchain says goes to standard error. Words: why.
prove() {
    want_toolchain "$1"
    say "$1: it is proved and built now, in half an hour to an hour"
    (cd "$crate" && rt run </dev/null >/dev/null)
}

# Answers what is typed, or comes through a pipe, as it comes. Words: those of the program.
open_shell() {
    if [ ! -t 0 ]; then
        "$program" "$@"
    elif command -v rlwrap >/dev/null; then
        say 'a semicolon ends a statement, Ctrl-D the session'
        rlwrap -C citus_run "$program" "$@"
    else
        say 'a semicolon ends a statement, Ctrl-D the session; with rlwrap installed, lines can be edited and called back'
        "$program" "$@"
    fi
}

# Takes a script by its name, to be read once the whole line of words is known to be well. Words: the name.
add_script() {
    count=$((count + 1))
    printf '%s\n' "$1" >"$work/$count.name"
    [ "$1" != - ] || return 0
    [ -e "$1" ] || fail "no script $1"
    [ ! -d "$1" ] || fail "$1 is a folder, and no script"
    [ -r "$1" ] || fail "the script $1 can't be read"
}

# Calls a function for each script, with its number as n. Words: the function, and its own words.
for_each_script() {
    n=0
    while [ "$n" -lt "$count" ]; do
        n=$((n + 1))
        "$@"
    done
}

read_script() {
    name=$(cat "$work/$n.name")
    if [ "$name" = - ]; then
        echo '<stdin>' >"$work/$n.name"
        cat >"$work/$n.sql"
    else
        cat <"$name" >"$work/$n.sql"
    fi
}

# Runs a tool over a script; what it says goes to standard error. Words: the tool, and its own words.
run_tool() {
    command -v python3 >/dev/null || return 0
    tool=$1
    shift
    python3 "$top/tools/$tool" "$work/$n.sql" --name "$(cat "$work/$n.name")" "$@" >&2 || true
}

# Says what a script would trip over.
check_script() {
    [ -n "$generates" ] || run_tool check_script
}

# Answers a script by the proved program. Words: those of the program.
answer_script() {
    name_script
    echo 0 >"$work/$n.status"
    { "$program" "$@" <"$work/$n.sql" || echo "$?" >"$work/$n.status"; } | tee "$work/$n.out" || echo 4 >"$work/$n.status"
    end_script "$@"
}

# Writes what the trial build has answered to a script, and shows what it says where the program didn't end. Words: those of the program.
write_answers() {
    name_script
    sed -n "/^== $mark\.$n\$/,/^== $mark\./{/^== $mark\./!p;}" "$work/all" >"$work/$n.out"
    sed -n "s/^case=$mark\.$n run=ended status=\([0-9]*\) .*/\1/p" "$work/log" >"$work/$n.status"
    if [ ! -s "$work/$n.status" ]; then
        echo 1 >"$work/$n.status"
        sed "s/^case=$mark\.\([0-9]*\) /script \1: /" "$work/log" >&2
        say "the program did not end over $(cat "$work/$n.name")"
    fi
    cat "$work/$n.out" || echo 4 >"$work/$n.status"
    end_script "$@"
}

name_script() {
    [ "$count" -eq 1 ] || say "$(cat "$work/$n.name"):"
}

# Shows where the ERRORs of a script lie, and keeps the first status that isn't 0. Words: those of the program.
end_script() {
    [ "$status" -ne 0 ] || status=$(cat "$work/$n.status")
    grep -q '^ERROR \|^FATAL ' "$work/$n.out" || return 0
    if [ "$(head -n 1 "$work/$n.out")" = 'FATAL usage' ]; then
        say "the program doesn't take these words: $*"
    elif [ -n "$is_csv" ]; then
        say 'where the ERRORs lie is told without --csv, since nothing shows where a table ends there'
    elif [ -z "$generates" ]; then
        run_tool where "$work/$n.out" --most 20
    fi
}

# Runs all scripts by one trial build, which prints a line `== NAME` in front of what each case answers. Words: those of the program.
try_scripts() {
    mark=$(basename "$work")
    mkdir "$work/cases"
    for_each_script write_case "$@"
    start_ticking
    (cd "$crate" && rt try --seconds 600 --cases "$work/cases") >"$work/all" 2>"$work/log" || true
    stop_ticking
    grep -q '^case=' "$work/log" || {
        cat "$work/log" >&2
        fail 'the trial build failed'
    }
}

write_case() {
    cp "$work/$n.sql" "$work/cases/$mark.$n"
    [ $# -eq 0 ] || printf '%s\n' "$@" >"$work/cases/$mark.$n.args"
}

# Counts the seconds on a terminal.
start_ticking() {
    [ -t 2 ] || return 0
    seconds=0
    while sleep 1; do
        seconds=$((seconds + 1))
        printf '\rrun.sh: %d s ' "$seconds" >&2
    done &
    ticker=$!
}

stop_ticking() {
    [ -n "$ticker" ] || return 0
    kill "$ticker" 2>/dev/null || true
    ticker=
    printf '\r                 \r' >&2
}

# Reads the line of words: scripts are counted and named, and those of the program stay.
count=0 status=0
is_csv='' is_shell='' generates='' must_prove=''
rest=$#
while [ "$rest" -gt 0 ]; do
    word=$1
    shift
    rest=$((rest - 1))
    case $word in
    -h | --help)
        usage
        exit 0
        ;;
    --proved) must_prove=yes ;;
    --shell) is_shell=yes ;;
    --csv)
        is_csv=yes
        set -- "$@" --csv
        ;;
    --workers)
        [ "$rest" -gt 0 ] || fail '--workers wants a number'
        set -- "$@" --workers "$1"
        shift
        rest=$((rest - 1))
        ;;
    --workers=* | --repartition | --stop | --journal | --columnar) set -- "$@" "$word" ;;
    generate)
        [ "$rest" -gt 1 ] || fail 'generate wants a number and how many rows'
        generates=generate number=$1 rows=$2
        shift 2
        rest=$((rest - 2))
        ;;
    chunks)
        [ "$rest" -gt 2 ] || fail 'chunks wants how many rows, and the least and the greatest that counts'
        generates=chunks rows=$1 least=$2 greatest=$3
        shift 3
        rest=$((rest - 3))
        ;;
    -) add_script - ;;
    -*) fail "no word $word: ./run.sh --help lists them" ;;
    *) add_script "$word" ;;
    esac
done
case $generates in
generate) set -- "$@" generate "$number" "$rows" ;;
chunks) set -- "$@" chunks "$rows" "$least" "$greatest" ;;
esac
[ -z "$generates$is_shell" ] || [ "$count" -eq 0 ] || fail "a script stands beside $generates${is_shell:+--shell}"
[ -z "$generates" ] || [ -z "$is_shell" ] || fail "$generates stands beside --shell"

lack=$(lack_of_proof)
if [ -n "$lack" ] && [ -n "$must_prove" ]; then
    prove "$lack"
    lack=
fi

if [ -n "$is_shell" ]; then
    [ -z "$lack" ] || fail "$lack, and only a proved one answers as you type: ./run.sh --proved --shell"
    open_shell "$@"
    exit
fi

if [ -n "$generates" ]; then
    add_script /dev/null
elif [ "$count" -eq 0 ] && { [ -p /dev/stdin ] || [ -f /dev/stdin ]; }; then
    add_script -
elif [ "$count" -eq 0 ]; then
    add_script "$top/examples/tenants.sql"
fi
for_each_script read_script
for_each_script check_script

if [ -z "$lack" ]; then
    for_each_script answer_script "$@"
else
    want_toolchain "$lack"
    say "$lack: a trial build without a proof answers, in one to four minutes each time;"
    say './run.sh --proved proves the program once, in half an hour to an hour, and from then on answers come at once'
    try_scripts "$@"
    for_each_script write_answers "$@"
fi
exit "$status"
