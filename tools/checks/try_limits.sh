#!/usr/bin/env bash
# Tries each command with the least stack and the least address space that docs/USING.md names. With that stack a command ends as
# it does without a limit. With that address space it ends so too, or with 12. The last line is 'N passed, M failed', and the
# status is 1 if any failed.
#
#     tools/checks/try_limits.sh PROGRAM
set -u
stack=768 # KiB
space=4000 # KiB
top=$(cd "$(dirname "$0")/../.." && pwd)
program=$(readlink -f "$1")
# shellcheck source=tools/checks/expecting.sh
. "$top/tools/checks/expecting.sh"
if [ "$(head -c 4 "$program")" != $'\x7fELF' ]; then
    leave_out 'the program is started by a script: no limit of its stack and its address space was tried'
    exit 0
fi
work=$(mktemp -d)
trap 'rm -rf "$work"' EXIT
mkdir "$work/files" && cd "$work/files" || exit 1
cp "$top/examples/first.pages" "$top/examples/first.rows" "$top/examples/first.schedule" "$top/examples/settings.toml" .
printf 'run 2024-07-01 00:05 20\nround\n' >short.schedule
zeros() {
    head -c "$1" /dev/zero
}
{
    printf 'DVARCH02'
    zeros 168
    printf '\1\1\1\0\xe1\x30\5\0\5\0\0\0\x99\x10\1'
    zeros 5
    printf '\x8a\2'
    zeros 155
} >one.archive

# Nobody listens at the first address, and the second belongs to no machine.
nobody=127.0.0.1:1
nowhere=192.0.2.1:1
commands=(
    ''
    'pages first.pages'
    'pages settings.toml first.pages'
    'soft settings.toml first.pages'
    "task $nobody time"
    'report one.archive rows 2024-07-01 2024-07-01'
    'report one.archive days 2024-07-01 2024-07-01'
    'report one.archive months 2024-07-01 2024-07-31'
    'climate one.archive 2024'
    "serve one.archive $nowhere 1"
    'replay settings.toml first.schedule'
    'fleet settings.toml 1 first.schedule short.schedule'
    'make 7 5000'
    'copy one.archive new.archive'
    'import first.rows one.archive'
    "station settings.toml new.archive $nobody"
    "stay settings.toml new.archive $nobody 1 1"
    "console settings.toml first.schedule $nowhere 1"
)

# Runs the program with these words behind a limit, in a copy of the files. It prints what the program prints, and then its status.
limited() {
    local limit=$1
    shift
    rm -rf "$work/copy" && cp -r "$work/files" "$work/copy" && cd "$work/copy" || exit 1
    # shellcheck disable=SC2086  # the limit is an option and a number
    (ulimit $limit && exec "$program" "$@" 2>&1)
    echo "status $?"
}

for words in "${commands[@]}"; do
    read -ra list <<<"$words"
    free=$(limited '-c 0' "${list[@]}")
    judge "'$words' with a stack of $stack KiB" 0 "$free" 0 "$(limited "-s $stack" "${list[@]}")"
    narrow=$(limited "-v $space" "${list[@]}")
    if [ "${narrow##*status }" = 12 ]; then
        free='*status 12'
    fi
    judge "'$words' with $space KiB of address space" 0 "$free" 0 "$narrow"
done
conclude
