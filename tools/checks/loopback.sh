#!/usr/bin/env bash
# Tries `console` and `station` as two processes over TCP: one round fills an archive from a console's whole memory of
# 2,560 records, and a second one, with a console that is started anew, finds nothing new. It ends by itself, with status
# 1 where something is not as it has to be.
#
#     tools/checks/loopback.sh [PROGRAM]
#
# Without a program it is that of this checkout, which is built first where that is not done yet.
set -u
here=$(dirname "$(readlink -f "$0")")
# shellcheck source=tools/checks/served_console.sh
. "$here/served_console.sh"
RECORDS=2560
# A round waits until the line was quiet for 6 waits, and then for 3 behind the console's answer to the call to wake.
QUIET_WAITS=9
QUIET_SECONDS=0.4

# Makes a round with a console of its own. The words are a name for it, and how many pages it has to take.
try_round() {
    local seconds status
    serve_console "$RECORDS"
    TIMEFORMAT='%R %U %S'
    seconds=$({ time "$program" station settings.toml week.archive "127.0.0.1:$console_port" >round.txt; } 2>&1)
    hold "$1" "round ok attempts 1 pages $2 skipped 0 acked $RECORDS rows $RECORDS" "$(cat round.txt)"
    # The console ends as its caller is gone.
    wait "$console"
    status=$?
    echo "    the console ended with $status: $(said console)"
    awk -v waits="$QUIET_WAITS" -v each="$QUIET_SECONDS" '{
        printf "    %.2f s by the clock, of which %d quiet waits of %.1f s take %.1f s;", $1, waits, each, waits * each
        printf " %.3f s of the processor\n", $2 + $3
    }' <<<"$seconds"
}

prepare "${1-}"
try_round 'the first round' 512
hold_rows week.archive "$RECORDS"
try_round 'the second round' 0
finish
