#!/usr/bin/env bash
# Builds the program for arm64 and tries it under qemu-user, on an emulated Cortex-A53: the processor of a Raspberry Pi 3. The
# last line is 'N passed, M failed', and the status is 1 if any failed. If the emulator or the C library for arm64 is not
# installed, one line says so, and nothing fails.
#
#     tools/checks/try_arm64.sh [PROGRAM [ARM64]]
#
# Without a program it is that of this checkout, which is built first if that is not done yet. ARM64 is another file in the
# place of out/arm64/station_program.
set -u
tools=$(cd "$(dirname "$0")/.." && pwd)
top=$(dirname "$tools")
PROCESSOR=cortex-a53
LIBRARY=/usr/aarch64-linux-gnu
LACKING=69       # a status of build_arm64.py
PAGES_OF_A_PI=16384 # bytes of memory, as the system of a Raspberry Pi 5 has them
RECORDS=2560
CASES=200

# shellcheck source=tools/checks/left_out.sh
. "$tools/checks/left_out.sh"
emulator=$(command -v qemu-aarch64 || command -v qemu-aarch64-static) || {
    leave_out 'qemu-aarch64 is missing: no program for arm64 was tried; on Debian: apt install qemu-user'
    exit 0
}
"$tools/build/build_arm64.py" /bin/true
case $? in
    0) ;;
    "$LACKING")
        leave_out 'the C library for arm64 is missing: no program for arm64 was tried'
        exit 0
        ;;
    *) exit 1 ;;
esac
# shellcheck source=tools/checks/served_console.sh
. "$tools/checks/served_console.sh"
arm64=$(readlink -f "${2:-$top/out/arm64/station_program}")
prepare "${1-}"
first=$program
# shellcheck source=tools/checks/expecting.sh
. "$tools/checks/expecting.sh"

# Runs a command as a program for arm64.
emulated() {
    "$emulator" -cpu "$PROCESSOR" -L "$LIBRARY" "$@"
}

cat >station_arm64 <<WRAPPER
#!/bin/sh
exec $emulator -cpu $PROCESSOR -L $LIBRARY $arm64 "\$@"
WRAPPER
chmod +x station_arm64
second=$folder/station_arm64

# Most of this waits for quiet lines, in which the rest is tried.
"$tools/checks/try_line.py" "$second" >line.output 2>&1 &
line=$!

expect 'that it is the program for arm64 of the sources as they stand' 0 '' "$tools/build/build_arm64.py" --holds "$arm64"
expect 'its verdict, beside the one for x86-64' 0 'logic=proved functions=* axioms=* target=aarch64-*' \
    "$tools/build/build_arm64.py" --verdict
expect 'that it loads the C library alone' 1 '' \
    eval "readelf -dW '$arm64' | sed -n 's/.*(NEEDED).*\[\(.*\)\]/\1/p' | grep -vx -e libc.so.6 -e ld-linux-aarch64.so.1"

# The C functions of tools/build/arm64, for both processors, and those of the toolchain's kit, by the same calls.
kit=$(dirname "$(dirname "$(readlink -f "$(command -v rt)")")")
words=('' a xy $'\xff\xfe')
for length in 4095 4999 5000 5001; do
    words+=("$(head -c $length /dev/zero | tr '\0' w)")
done
printf '%s\n' 127.0.0.1 ::1 localhost 0x7f000001 1.2 ::ffff:10.0.0.1 fe80::1 256.1.1.1 1::2::3 '' .. >names
printf '%s\n' '127.0.0.1 localhost' '127.0.0.1 many' '10.0.0.2 many' '10.0.0.3 many' 'fd00::1 many' 'fd00::2 many' >hosts
# shellcheck disable=SC2016  # the inner shell takes the words
naming=(unshare -rm sh -c 'mount --bind hosts /etc/hosts && exec "$@"' sh)
if "${naming[@]}" true 2>/dev/null; then
    echo many >>names
else
    naming=()
    leave_out 'unshare is missing or refused: no name of many addresses was looked up'
fi

# Runs the calls with the words and names, as the same word 0. The first word is what starts them under another name.
call() {
    "${naming[@]}" "$@" "${words[@]}" <names
}
printf '#!/bin/bash\nexec -a calls "$@"\n' >as_calls
chmod +x as_calls

# Prints the first call that two sides answer otherwise, as the second side has it.
first_difference() {
    diff "$1" "$2" | sed -n '/^>/{s/^> //p; q}' | cut -c 1-100
}
if command -v cc >/dev/null; then
    expect 'calls of the C functions of the kit' 0 '' \
        cc -O2 -o kit_calls "$tools/checks/kit_calls.c" "$kit/c/libos_c.a" "$kit/c/liblibc_c.a"
    expect 'calls of those of tools/build/arm64 on x86-64' 0 '' cc -O2 -o own_calls "$tools/checks/kit_calls.c" "$tools"/build/arm64/*.c
    call ./as_calls ./kit_calls >kit.said
    call ./as_calls ./own_calls >own.said
    expect 'the words, errors, blocks, addresses and waits that are called for' 0 '7[45]4' eval 'wc -l <kit.said'
    expect 'the C functions of tools/build/arm64 on x86-64, beside the kit' 0 '' first_difference kit.said own.said
    expect 'calls of those of tools/build/arm64 on arm64' 0 '' "$tools/build/cross_arm64.py" arm64_calls "$tools/checks/kit_calls.c"
    call "$emulator" -cpu "$PROCESSOR" -0 calls -L "$LIBRARY" ./arm64_calls >arm64.said
    expect 'the C functions of tools/build/arm64 on arm64, beside the kit' 0 '' first_difference kit.said arm64.said
else
    leave_out 'cc is missing: the C functions were not tried beside those of the kit'
fi

# What .ci/run tries of the program for x86-64. The first script has the examples and the cases of the tables.
expect 'tools/checks/try_program.sh' 0 '*[1-9]* passed, 0 failed' "$tools/checks/try_program.sh" "$second"
expect 'tools/checks/try_disk.py' 0 '*[1-9]* passed, 0 failed' "$tools/checks/try_disk.py" "$second"
expect 'tools/checks/try_model.py' 0 '*' "$tools/checks/try_model.py" --cases "$CASES" "$second"
examples=$top/examples
emulated -p "$PAGES_OF_A_PI" "$arm64" replay "$examples/week.toml" "$examples/week.schedule" >week.said
expect 'a stormy week in larger pages of memory' 0 '' cmp week.said "$examples/week.replay"

# Makes a round by one program with a console of the other, whose archive the other reads. The first word is its name.
round_between() {
    program=$2
    serve_console "$RECORDS"
    expect "a round: $1" 0 "round ok attempts 1 pages 512 skipped 0 acked $RECORDS rows $RECORDS" \
        "$3" station settings.toml "$1.archive" "127.0.0.1:$console_port"
    "$2" report "$1.archive" rows 2000-01-01 2099-12-31 >"$1.rows"
    expect "the rows of that archive, by the console's program" 0 '' cmp "$1.rows" <(rows_of "$RECORDS")
}
round_between station_of_arm64 "$first" "$second"
round_between console_of_arm64 "$second" "$first"
expect 'both archives' 0 '' cmp station_of_arm64.archive console_of_arm64.archive

if command -v dpkg-shlibdeps >/dev/null && git -C "$tools" rev-parse --is-shallow-repository 2>/dev/null | grep -q false; then
    package=$("$tools/build/package.sh" --arch arm64)
    expect 'a package' 0 jofitrana_*_arm64.deb echo "$package"
    expect 'its machine' 0 arm64 dpkg-deb -f "$package" Architecture
    expect 'what it needs' 0 'libc6 (>= 2.34), python3 (>= 3.11)' dpkg-deb -f "$package" Depends
    dpkg-deb --fsys-tarfile "$package" | tar -xO ./usr/bin/jofitrana >packed
    expect 'the program in it' 0 '' cmp packed "$arm64"
else
    leave_out 'dpkg-dev or the repository of git is missing: no package for arm64 was tried'
fi

wait "$line"
judge 'tools/checks/try_line.py' 0 '*[1-9]* passed, 0 failed' "$?" "$(cat line.output)"
conclude
