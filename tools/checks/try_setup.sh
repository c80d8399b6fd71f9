#!/usr/bin/env bash
# Tries what setup writes and sets, with a script in the program's place. The last line is 'N passed, M failed', and the status
# is 1 if any failed. It takes some five seconds.
#
#     tools/checks/try_setup.sh
set -u
tools=$(cd "$(dirname "$0")/.." && pwd)
# shellcheck source=tools/checks/expecting.sh
. "$tools/checks/expecting.sh"
folder=$(mktemp -d)
trap 'rm -rf "$folder"' EXIT
cd "$folder" || exit 1
export TZ=UTC

# A program that reports the rows of the file `listed`, and answers a task by the file of its words in the folder `answers`. It
# notes each task with the seconds at which it was asked.
cat >program <<'PROGRAM'
#!/bin/sh
trap '' XFSZ
case $1 in
    report) awk -v first="$4" -v last="$5" '$2 >= first && $2 <= last' listed ;;
    task)
        shift 2
        echo "$(date +%s) $*" >>asked 2>/dev/null
        case $* in 'time set '*) set -- time set ;; esac
        cat "answers/$*" 2>/dev/null || { echo 'link fault'; exit 6; }
        ;;
esac
PROGRAM
chmod +x program
mkdir answers

# Has a console answer whose memory has these bytes from 0x11 on: summer time off, and a period in hexadecimal digits.
console() {
    echo 'kind 16' >answers/kind
    echo 'time set' >'answers/time set'
    date '+time %F %T' >answers/time
    echo "0001$(printf '00%.0s' {1..26})$1" >'answers/eeprom read 11 29'
    : >asked
    : >listed
}

# Runs setup for the station roof.
set_up() {
    "$tools/product/setup.py" --program ./program --settings etc/stations --archives var "$@" roof there:1
}

# Runs a command under a mask, the first word.
masked() (
    umask "$1"
    "${@:2}"
)

# Runs a command that can make no file longer than nothing, as on a full disk.
without_room() (
    ulimit -f 0
    "$@"
)

mkdir var
for mask in 077 000; do
    console 05
    expect "setup under the mask $mask" 0 '*Written: etc/stations/roof.env*' masked "$mask" set_up
    expect "the modes of what it writes under the mask $mask" 0 $'755 etc\n755 etc/stations\n644 etc/stations/roof.env\n644 etc/stations/roof.toml' \
        eval "find etc -printf '%m %p\\n' | sort -k 2"
    rm -r etc
done
expect 'setup on a full disk' 1 '*! etc/stations/roof.toml: File too large. *' without_room set_up
expect 'no settings half made' 1 '' [ -e etc/stations/roof.toml ]

console 1e
mkdir -p etc/stations
printf '[calibration.inTemp]\noffset = 1\n' >etc/stations/roof.toml
expect 'settings without a period beside a console of 30 minutes' 1 \
    '*! etc/stations/roof.toml has period = 5 in place of period = 30: *' set_up
printf 'ADDRESS=there:1\n\377=\n' >etc/stations/roof.env
expect 'an environment of other bytes' 1 '*! etc/stations/roof.env is no text in UTF-8*' set_up
console 05
printf 'ADDRESS=there:1\nTZ=<+00>-00\nBUCKET=0.01in\n' >etc/stations/roof.env
expect 'settings without a period beside a console of 5 minutes' 0 '*Kept as it is: etc/stations/roof.toml*' set_up
rm -r etc

# How many seconds the clock that setup sets is ahead of the moment at which it is said, and how many setup took.
console 05
began=$(date +%s)
expect 'setup sets the clock' 0 "*Its clock showed *, and was set to this machine's time*" set_up --set-clock
took=$(($(date +%s) - began))
read -r said _ _ day clock < <(grep 'time set' asked)
ahead=$(($(date -d "$day $clock" +%s) - said))
expect "the clock is set four seconds ahead, or less if setup was kept waiting: it is $ahead" 0 '' \
    [ "$ahead" -le 4 -a "$ahead" -ge $((3 - took)) ]

# The check must not run a module of the folder that it is made in.
echo "row $(date -d '1 minute ago' '+%F %H:%M') 5 outTemp=650" >listed
date '+time %F %T' >answers/time
echo 05 >'answers/eeprom read 2D 1'
echo 'period = 5' >settings.toml
echo 'open("was_run", "w")' >tomllib.py
"$tools/product/check.py" -p ./program --settings settings.toml --console there:1 archive >told
expect 'a module of the current folder is not run' 1 '' [ -e was_run ]
expect 'the check beside it' 0 'JOFITRANA OK *' cat told

conclude
