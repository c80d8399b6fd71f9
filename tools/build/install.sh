#!/usr/bin/env bash
# Copies the proved program and what goes with it below a prefix, or takes away just what was copied.
#
#     tools/build/install.sh install [--prefix DIR] [--program FILE]
#     tools/build/install.sh uninstall [--prefix DIR]
#
# tools/build/installed.txt lists what is copied. A note below the prefix has a line for each file that was copied, and for
# each folder that was made for one. Install reports a prefix below which systemd finds no unit.
set -u
top=$(cd "$(dirname "$0")/../.." && pwd)
program=$top/crates/station_program/out/station_program
prefix=/usr/local
note=share/jofitrana/installed

fail() {
    echo "station: $1" >&2
    exit 1
}

# The lines of the list, without its comments.
listed() {
    grep -v '^#' "$top/tools/build/installed.txt"
}

# Ends where a name of the list is taken by what was not installed from here.
find_room() {
    local to
    while read -r _ _ to; do
        grep -qxF "file $to" "$prefix/$note" 2>/dev/null && continue
        if [ -e "$prefix/$to" ] || [ -L "$prefix/$to" ]; then
            fail "$prefix/$to is there, and was not installed from here: nothing is changed"
        fi
    done < <(listed)
}

# Makes the folder of a name, and those above it, where they are not there, and notes them.
make_folder() {
    local folder
    folder=$(dirname "$1")
    [ -d "$prefix/$folder" ] && return
    make_folder "$folder" && mkdir -m 755 "$prefix/$folder" && made+=("folder $folder")
}

# Notes a file, and copies it, or makes a link, by a line of the list.
copy() {
    local mode=$1 from=$2 to=$3
    make_folder "$to" || return
    made+=("file $to")
    case $mode/$from in
        link/*) ln -s "$from" "$prefix/$to" ;;
        */PROGRAM) install -m "$mode" "$program" "$prefix/$to" ;;
        *) install -m "$mode" "$top/$from" "$prefix/$to" ;;
    esac
}

# Takes away the files that were noted, and the folders that were noted and are empty then.
take_away() {
    local kind name
    while read -r kind name; do
        case $kind in
            file) rm -f "$prefix/$name" || fail "$prefix/$name cannot be taken away" ;;
            folder) rmdir --ignore-fail-on-non-empty "$prefix/$name" ;;
        esac
    done < <(printf '%s\n' "${made[@]}" | tac)
}

# Takes away what the note of an installation lists.
uninstall() {
    mapfile -t made <"$prefix/$note" || fail "$prefix/$note cannot be read"
    take_away
}

# Copies all that is listed, or leaves nothing of it.
install_all() {
    local mode from to failed=
    [ -x "$program" ] || fail "the program is not there: $program"
    find_room
    [ ! -e "$prefix/$note" ] || uninstall
    made=()
    make_folder "$note" || fail "$prefix cannot be written to"
    made+=("file $note")
    while read -r mode from to; do
        copy "$mode" "$from" "$to" || { failed=$to; break; }
    done < <(listed)
    if [ -z "$failed" ]; then
        printf '%s\n' "${made[@]}" >"$prefix/$note" && chmod 644 "$prefix/$note" && return
        failed=$note
    fi
    take_away
    fail "$prefix/$failed could not be written: nothing is installed"
}

# Reports that systemd finds neither the units nor the program, unless it looks below this prefix.
report_units() {
    case $(readlink -f "$prefix") in
        /usr | /usr/local) ;;
        *) echo "station: systemd finds no unit below $prefix: for rounds by its timer install below /usr/local" ;;
    esac
}

command=${1-}
[ $# = 0 ] || shift
while [ $# -ge 2 ]; do
    case $1 in
        --prefix) prefix=$2 ;;
        --program) program=$2 ;;
        *) break ;;
    esac
    shift 2
done
[ $# = 0 ] || fail "what is '$1'?"
[ -d "$prefix" ] || fail "there is no folder $prefix"
case $command in
    install)
        install_all
        report_units
        ;;
    uninstall)
        [ -e "$prefix/$note" ] || fail "nothing is installed below $prefix"
        uninstall
        ;;
    *) fail 'the first word is install or uninstall' ;;
esac
