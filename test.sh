#!/bin/sh
# Passes the tests: the merge gate `rt ci`, and then the repository's own checks over the program that it leaves.
# Usage: ./test.sh         all of it, in half an hour to an hour on four processors; one line shows how far the gate is
#        ./test.sh --own   the own checks alone, in a minute or two
#        ./test.sh --try   the scripts of tests/sql and the lists of tests/words alone, by a trial build with no proof, in two to four minutes
cd "$(dirname "$0")" || exit 2
case ${1-} in
'' | --own | --try) ;;
*)
    sed -n 's/^# \(Usage: \|       \)/\1/p' test.sh
    exit 2
    ;;
esac
program=crates/citus_run/out/citus_run
log=out/gate.log
status=0
begun=$(date +%s)
work=$(mktemp -d)
trap 'rm -rf "$work"' EXIT
trap 'exit 1' INT TERM HUP

fail() {
    echo "test.sh: $1"
    status=1
}

# Passes the gate. One line shows how far it is, and a file gets all that it writes.
pass_gate() {
    mkdir -p out
    echo "rt ci: all that it writes is in $log"
    { rt ci 2>&1 || echo $? >"$work/gate"; } | tee "$log" | tools/progress crates.txt
    [ ! -e "$work/gate" ] || fail "the gate is not passed: $log says why"
}

# Runs a script of tests/sql over the program, with the words of NAME.args. The output must be tests/expected/NAME.out, and the exit
# status that of NAME.status, 0 where there is none. Prints the difference. Words: NAME, and words before those of NAME.args.
pass_script() {
    name=$1
    expected=tests/expected/$name
    shift
    if [ -f "tests/sql/$name.args" ]; then
        while IFS= read -r word; do set -- "$@" "$word"; done <"tests/sql/$name.args"
    fi
    "$program" "$@" <"tests/sql/$name.sql" >"$work/out" 2>"$work/err"
    found=$?
    wanted=$(cat "$expected.status" 2>/dev/null || echo 0)
    well=0
    diff -u "$expected.out" "$work/out" || well=1
    [ "$found" -eq "$wanted" ] || { echo "$name: exit status $found, not $wanted"; well=1; }
    [ ! -s "$work/err" ] || { echo "$name: on standard error:"; head -n 5 "$work/err"; well=1; }
    return "$well"
}

# Runs every script, goes on where one differs, and counts them. Words: a word before those of each script that hasn't it, if any.
pass_scripts() {
    passed=0 failed=0
    for script in tests/sql/*.sql; do
        name=$(basename "$script" .sql)
        if [ $# -gt 0 ] && grep -qxe "$1" "tests/sql/$name.args" 2>/dev/null; then
            continue
        fi
        if pass_script "$name" "$@"; then
            passed=$((passed + 1))
        else
            failed=$((failed + 1))
        fi
    done
    echo "scripts${1:+ under }${1-}: $passed passed, $failed failed"
    [ "$failed" -eq 0 ] || status=1
}

# Writes so many short statements and, as FILE.stdout, what they are answered: the first 20,000 are, and semicolons alone count nothing. Words: how
# many, the file.
write_statements() {
    yes 'a;;' | head -n "$1" >"$2"
    yes 'ERROR 4 syntax at 0' | head -n "$1" | head -n 20000 >"$2.stdout"
    [ "$1" -le 20000 ] || echo 'FATAL limit statements 20000' >>"$2.stdout"
}

# Calls a function for each list of tests/words, with what is wanted and the words. Words: the function.
for_each_list() {
    while IFS='|' read -r words wanted; do
        case $words in '#'*) continue ;; esac
        set -f
        "$1" "${wanted# }" $words
        set +f
    done <tests/words
}

# Runs an empty script with a list of words. Words: the output that is wanted, the list.
pass_list() {
    wanted=$1
    shift
    "$program" "$@" </dev/null >"$work/out" 2>"$work/err"
    found=$?
    status_wanted=0
    [ "$wanted" != 'FATAL usage' ] || status_wanted=1
    if [ "$found" -eq "$status_wanted" ] && [ "$(cat "$work/out" "$work/err")" = "$wanted" ]; then
        passed=$((passed + 1))
    else
        failed=$((failed + 1))
        echo "words $*: status $found and '$(cat "$work/out" "$work/err")', not '$wanted'"
    fi
}

# Runs every list, goes on where one differs, and counts them.
pass_lists() {
    passed=0 failed=0
    for_each_list pass_list
    echo "words: $passed passed, $failed failed"
    [ "$failed" -eq 0 ] || status=1
}

# Runs the commands of a transcript, its lines that begin with `$ `, and prints each with what it writes: standard output, then standard error.
# Where a mark is given, it stands before lines of standard error, and the status is told where it isn't 0. Words: the transcript, the folder
# to run in, the mark.
replay() {
    while IFS= read -r line; do
        case $line in '$ '*) ;; *) continue ;; esac
        printf '%s\n' "$line"
        (cd "$2" && COLUMNS=80 PATH=$2/bin:$PATH sh -c "${line#??}") </dev/null >"$work/replay.out" 2>"$work/replay.err"
        found=$?
        cat "$work/replay.out"
        sed "s/^/$3/" "$work/replay.err"
        [ -z "$3" ] || [ "$found" -eq 0 ] || echo "[status $found]"
    done <"$1"
}

# Replays a transcript, which must come out as it is. Words: its name, the file, the folder to run in, the mark of standard error.
pass_transcript() {
    replay "$2" "$3" "$4" >"$work/replayed"
    if diff -u "$2" "$work/replayed"; then
        passed=$((passed + 1))
    else
        failed=$((failed + 1))
        echo "$1 comes out otherwise"
    fi
}

# Makes a folder in which run.sh stands over stubs of the program and of the toolchain. Words: the folder.
make_stub() {
    mkdir -p "$1/bin" "$1/crates/citus_run/out" "$1/crates/cq_low/src" "$1/examples"
    cp tests/stub/program tests/stub/rt "$1/bin"
    cp tests/stub/*.sql "$1"
    mv "$1/tenants.sql" "$1/examples"
    cp -R run.sh crates.txt tools "$1"
    touch "$1/crates/cq_low/src/lib.rt"
    cp tests/stub/program "$1/crates/citus_run/out/citus_run"
    touch "$1/crates/citus_run/out/citus_run"
}

# Passes the calls of run.sh over the stubs, the transcripts of the tools, and what the documents show of the program.
pass_transcripts() {
    passed=0 failed=0
    make_stub "$work/stub"
    pass_transcript tests/calls tests/calls "$work/stub" '! '
    for transcript in tools/tests/*.console; do
        pass_transcript "$transcript" "$transcript" "$PWD" '! '
    done
    for document in README.md docs/*.md; do
        sed -n '/^```console$/,/^```$/{/^```/d; p;}' "$document" >"$work/document"
        [ ! -s "$work/document" ] || pass_transcript "$document" "$work/document" "$PWD" ''
    done
    echo "transcripts: $passed passed, $failed failed"
    [ "$failed" -eq 0 ] || status=1
}

# The scripts, the lists and the most statements by the toolchain's trial build, which compares the output alone.
try_scripts() {
    for script in tests/sql/*.sql; do
        name=$(basename "$script" .sql)
        cp "$script" "$work/$name"
        cp "tests/expected/$name.out" "$work/$name.stdout"
        [ ! -f "tests/sql/$name.args" ] || cp "tests/sql/$name.args" "$work/"
    done
    lists=0
    for_each_list write_list
    for count in 20000 20001; do write_statements "$count" "$work/statements_$count"; done
    (cd crates/citus_run && rt try --seconds 600 --cases "$work") || status=1
}

# Writes a list as a case of the trial build. Words: the output that is wanted, the list.
write_list() {
    lists=$((lists + 1))
    case=$work/words_$lists
    : >"$case"
    [ -z "$1" ] || echo "$1" >>"$case.stdout"
    : >>"$case.stdout"
    shift
    printf '%s\n' "$@" >"$case.args"
}

if [ "${1-}" = --try ]; then
    echo 'test.sh: a trial build, two to four minutes'
    try_scripts
    echo "test.sh: tried in $(($(date +%s) - begun)) s"
    exit "$status"
fi

[ "${1-}" = --own ] || pass_gate

# A session of nothing passes just where a proved program stands that no source is newer than.
./run.sh --shell </dev/null 2>"$work/err" || { fail "the own checks want a proved program: $(cat "$work/err")"; exit 1; }

[ "$(cat HANDLES)" = 'Handles allowed: Threads, Wait.' ] || fail 'HANDLES has another line'

# Each crate has its entry in the map.
for crate in $(sed -n 's/^\([a-z_]*\):.*/\1/p' crates.txt); do
    grep -q "$crate" docs/MAP.md || fail "docs/MAP.md does not say what $crate is for"
done

# The main job.
for script in examples/*.sql; do
    ./run.sh "$script" >"$work/out" 2>"$work/err" || { cat "$work/err"; fail "run.sh: $script has another status than 0"; }
    diff "${script%.sql}.out" "$work/out" || fail "run.sh: another output than ${script%.sql}.out"
done

# A script of one byte too many is no file of tests/sql.
head -c 16777217 /dev/zero | tr '\0' ' ' | "$program" >"$work/out"
[ $? -eq 6 ] && echo 'FATAL limit bytes 16777216' | cmp -s - "$work/out" || fail 'a script of 16,777,217 bytes is not answered by FATAL limit bytes 16777216 and status 6'

# Scripts of the most statements, and of one more.
for count in 20000 20001; do
    write_statements "$count" "$work/statements"
    "$program" <"$work/statements" >"$work/out"
    [ $? -eq "$((count > 20000 ? 6 : 0))" ] && cmp -s "$work/statements.stdout" "$work/out" || fail "a script of $count statements has another answer"
done

# Two tables of 100,000 rows in one shard are joined by hashing, within seconds: to try each pair would take hours.
{
    echo 'CREATE TABLE a (k bigint PRIMARY KEY);'
    echo "SELECT create_distributed_table('a', 'k', shard_count => 1);"
    echo 'CREATE TABLE b (k bigint PRIMARY KEY);'
    echo "SELECT create_distributed_table('b', 'k', colocate_with => 'a');"
    for table in a b; do
        echo "COPY $table FROM STDIN;"
        seq 100000
        echo '\.'
    done
    echo 'SELECT a.k, b.k FROM a JOIN b ON a.k = b.k;'
} >"$work/joined"
timeout 60 "$program" <"$work/joined" >"$work/out"
[ $? -eq 0 ] && tail -n 1 "$work/out" | grep -qx '(100000 rows)' || fail 'a join of two tables of 100,000 rows has another answer, or takes a minute'

# A folder can't be read, and a full device can't be written.
"$program" <tests >"$work/out"
[ $? -eq 2 ] && echo 'FATAL read' | cmp -s - "$work/out" || fail 'a fault of reading is not answered by FATAL read and status 2'
if [ -c /dev/full ]; then
    "$program" <examples/tenants.sql >/dev/full
    [ $? -eq 4 ] || fail 'a fault of writing is not answered by status 4'
fi

pass_transcripts
pass_lists
pass_scripts
# Rows in chunks by columns are answered alike.
pass_scripts --columnar
exit "$status"
