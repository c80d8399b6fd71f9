# shellcheck shell=bash
# Sourced by tools/checks/loopback.sh, tools/checks/serial_try.sh and tools/checks/try_tools.sh, for a modelled console that serves a schedule of
# one line at a port of its own. What they start ends with them, each process by its number.

scripts=$(cd "$(dirname "${BASH_SOURCE[0]}")/.." && pwd)
FIRST_DAY=2024-07-01
TURNS=1000000
LONGEST_SECONDS=300
started=()
failed=0

# Says what is lacking, and ends.
lack() {
    echo "$(basename "$0"): $1" >&2
    exit 1
}

# Sets `program` to the one of the first word, or else to this checkout's, and goes to an empty folder with settings. The
# words behind that are commands, each with its Debian package, as `socat/socat`.
prepare() {
    local top wanted
    top=$(dirname "$scripts")
    for wanted in python3/python3 timeout/coreutils "${@:2}"; do
        command -v "${wanted%/*}" >/dev/null ||
            lack "the command ${wanted%/*} is missing; on Debian: apt install ${wanted#*/}"
    done
    [ -r /proc/net/tcp ] || lack 'there is no /proc/net/tcp'
    program=$(readlink -f "${1:-$top/crates/station_program/out/station_program}")
    [ -n "$1" ] || "$top/station" pages "$top/examples/first.pages" >/dev/null || lack 'the program is not built'
    [ -x "$program" ] || lack "the program is missing: ${1:-$program}"
    folder=$(mktemp -d)
    trap tidy EXIT
    cd "$folder" || exit 1
    echo 'period = 5' >settings.toml
}

tidy() {
    local number
    for number in "${started[@]}"; do kill "$number" 2>/dev/null; done
    for number in "${started[@]}"; do wait "$number" 2>/dev/null; done  # a port is held until this script ends
    rm -rf "$folder"
}

# Starts a command that serves, and ends it after some minutes. The first word is its name.
start() {
    timeout "$LONGEST_SECONDS" "${@:2}" >"$1.txt" 2>&1 &
    started+=($!)
}

# What the one of this name has said, on one line.
said() {
    tr '\n' ' ' <"$1.txt" | sed 's/ $//'
}

# Waits until the one that was started last, of this name, serves, which a command shows by its status.
await() {
    while kill -0 "${started[-1]}" 2>/dev/null; do
        "${@:2}" && return
        sleep 0.1
    done
    lack "$1 does not serve; it said '$(said "$1")'"
}

# Whether somebody listens at a port. It does not call there, since a console takes one caller.
listens() {
    grep -q ": 0100007F:$(printf '%04X' "$1") 00000000:0000 0A" /proc/net/tcp
}

# Sets `port` to one that the system gives to nobody else until this script ends, and at which its programs may listen.
hold_port() {
    local holder
    exec {holder}< <(python3 -I "$scripts/product/held_port.py")
    started+=($!)
    read -r port <&"$holder"
}

# Starts a console of so many records, and sets `console` to its number and `console_port` to its port.
serve_console() {
    echo "run $FIRST_DAY 00:05 $1 outTemp=650" >records.schedule
    hold_port
    console_port=$port
    start console "$program" console settings.toml records.schedule "127.0.0.1:$console_port" "$TURNS"
    # shellcheck disable=SC2034  # it is for who sources this
    console=${started[-1]}
    await console listens "$console_port"
}

# Prints the rows that so many records give.
rows_of() {
    seq 5 5 $((5 * $1)) | sed "s/.*/$FIRST_DAY UTC & minutes/" |
        date -u -f - '+row %F %H:%M 5 outTemp=650 rain=0 highRainRate=0 windSamples=0 windGust=0 ET=0'
}

# Says whether a text is the one that is wanted: its name, what is wanted, what came.
hold() {
    if [ "$2" = "$3" ]; then
        echo "$1: $(tail -n 1 <<<"$3")"
    else
        echo "$1: '${3:0:300}', and NOT '${2:0:300}'"
        failed=1
    fi
}

# Holds the rows of an archive against those that so many records give.
hold_rows() {
    local kept
    kept=$("$program" report "$1" rows 2000-01-01 2099-12-31)
    if [ "$kept" = "$(rows_of "$2")" ]; then
        echo "    its $2 rows are the schedule's, the first and the last of them:"
    else
        echo '    its rows are NOT the schedule'"'"'s; the first and the last of them:'
        failed=1
    fi
    sed -n '1s/^/    /p; $s/^/    /p' <<<"$kept"
}

# Ends with 1 where something was not as it has to be.
finish() {
    [ "$failed" = 0 ] && echo 'all is as it has to be' || echo 'NOT all is as it has to be'
    exit "$failed"
}
