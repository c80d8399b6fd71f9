#!/usr/bin/env bash
# Tries the built program: the cases of tools/checks/program_rows, and then trouble of streams, of links between files and of other
# processes, which no such case can make. The last line is 'N passed, M failed', and the status is 1 if any failed.
#
#     tools/checks/try_program.sh [PROGRAM]
#
# Without a program it is that of this checkout, which is built first where that is not done yet.
set -u
top=$(cd "$(dirname "$0")/../.." && pwd)
if [ $# = 0 ]; then
    program=$top/crates/station_program/out/station_program
    first=$top/station
else
    program=$(readlink -f "$1")
    first=$program
fi
work=$(mktemp -d)
trap 'rm -rf "$work"' EXIT
# shellcheck source=tools/checks/left_out.sh
. "$top/tools/checks/left_out.sh"
rows=$(cat "$top/examples/first.txt")
passed=0
failed=0

# Holds the status and the output of the last run against what is wanted.
expect() {
    if [ "$status" = "$2" ] && [ "$output" = "$3" ]; then
        passed=$((passed + 1))
    else
        failed=$((failed + 1))
        echo "$1: status $status and '${output:0:200}', in place of $2 and '${3:0:200}'" >&2
    fi
}

# Runs the program with these words.
run() {
    output=$("$program" "$@")
    status=$?
}

# Runs another command in its place, and takes its status alone.
check() {
    "$@"
    status=$?
    output=
}

cp "$top/examples/first.pages" "$work/" && cd "$work" || exit 1
output=$("$first" pages first.pages)
status=$?
expect 'a good file, from another folder' 0 "$rows"

check "$top/tools/checks/try_rows.py" "$program"
expect 'the cases of the tables' 0 ''
check "$top/tools/checks/try_limits.sh" "$program"
expect 'the least stack and address space of each command' 0 ''

run pages $'\xff'
expect 'a word that is not UTF-8' 1 usage

# An archive of two rows of 2024-07-01, which have the outside temperature alone.
zeros() {
    head -c "$1" /dev/zero
}
{
    printf 'DVARCH02'
    zeros 168
    printf '\1\1\2\0\xe1\x30\5\0\5\0\0\0\1'
    zeros 7
    printf '\x8b\2'
    zeros 154
    printf '\0\1\0\0\xe1\x30\x0a\0\5\0\0\0\1'
    zeros 7
    printf '\x8c\2'
    zeros 155
} >old.archive
cp old.archive kept
run report old.archive rows 2024-07-01 2024-07-01
expect 'an archive of two rows' 0 $'row 2024-07-01 00:05 5 outTemp=651\nrow 2024-07-01 00:10 5 outTemp=652'

ln -s old.archive link.archive
ln old.archive second.archive
for name in ./old.archive "$work/old.archive" link.archive second.archive; do
    run copy old.archive "$name"
    expect "a copy to $name, which is the same file" 7 'disk fault'
    run copy "$name" old.archive
    expect "a copy from $name, which is the same file" 7 'disk fault'
done
check cmp -s old.archive kept
expect 'an archive that was to be copied to itself is kept' 0 ''
mkdir below
ln -s below/far.archive near.archive
run copy old.archive near.archive
expect 'a copy to a link to a file that is not there' 0 'copied 2'
check cmp -s old.archive below/far.archive
expect 'a copy is made where the link leads' 0 ''

run import "$top/examples/first.rows" first.archive
expect 'an import of the first hour' 0 'imported 12 passed 0 rows 12'
run report first.archive rows 1999-12-31 2127-12-31
expect 'a report of that hour is its text' 0 "$(cat "$top/examples/first.rows")"
output=$("$program" import "$top/examples/first.rows" unread.archive 2>&1 >/dev/full)
status=$?
expect 'an output that is full in an import' 9 ''
check cmp -s first.archive unread.archive
expect 'its rows are there' 0 ''

cp "$top/examples/settings.toml" "$top/examples/first.schedule" .
run replay settings.toml first.schedule
expect 'a schedule with a lost page and a stop' 0 "$(cat "$top/examples/first.replay")"
cp "$top/examples/headline.schedule" .
run replay settings.toml headline.schedule
expect 'the schedule that HEADLINE works through' 0 "$(cat "$top/examples/headline.replay")"
cp "$top/examples/week.toml" "$top/examples/week.schedule" .
run replay week.toml week.schedule
expect 'a stormy week' 0 "$(cat "$top/examples/week.replay")"
output=$("$program" replay settings.toml first.schedule 2>&1 >/dev/full)
status=$?
expect 'an output that is full in a replay' 9 ''
{
    printf 'run 2024-07-01 00:05 5\nround\n'
    printf 'reply %s lost\n' 1 2 3 4 5 6 7 8 9
} >asleep.schedule
asleep=$("$program" replay settings.toml asleep.schedule)
for seed in 1 2; do
    run fleet settings.toml "$seed" first.schedule asleep.schedule
    both=$output
    output=$(sed -n 's/^1 //p' <<<"$both")
    expect "a station of a fleet drawn from $seed prints what its replay does" 0 "$(cat "$top/examples/first.replay")"
    output=$(sed -n 's/^2 //p' <<<"$both")
    expect "so does the second one, drawn from $seed" 0 "$asleep"
done

output=$("$program" station settings.toml old.archive 127.0.0.1:1 2>&1 >/dev/full)
status=$?
expect 'an output that is full in a round' 9 ''
check cmp -s old.archive kept
expect 'an archive that a round added nothing to is kept' 0 ''

run copy old.archive copy.archive
expect 'a copy that nobody holds' 0 'copied 2'
if command -v flock >/dev/null; then
    output=$(flock -o copy.archive "$program" copy old.archive copy.archive)
    status=$?
    expect 'a copy to an archive that another process holds' 7 'disk fault'
    output=$(flock -o copy.archive "$program" import "$top/examples/first.rows" copy.archive)
    status=$?
    expect 'an import into an archive that another process holds' 7 'disk fault'
    output=$(flock -o old.archive "$program" station settings.toml old.archive 127.0.0.1:1)
    status=$?
    expect 'a round with an archive that another process holds' 7 'disk fault'
else
    leave_out 'flock is missing: no archive that another process holds was tried'
fi

output=$("$program" pages first.pages 2>&1 >/dev/full)
status=$?
expect 'an output that is full' 9 ''
output=$("$program" pages first.pages 2>&1 >&-)
status=$?
expect 'a closed output' 9 ''
output=$("$program" pages first.pages <&- 2>&-)
status=$?
expect 'a closed input and a closed standard error' 0 "$rows"

echo "$passed passed, $failed failed"
[ "$failed" = 0 ]
