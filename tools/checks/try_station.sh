#!/usr/bin/env bash
# Tries ./station over a small tree of crates, with a script in the toolchain's place: in which order and how many at once
# crates are proved, and what is printed of faults; and which verdict and which program for arm64 are refused. The last line is
# 'N passed, M failed', and the status is 1 if any failed.
set -u
tools=$(cd "$(dirname "$0")/.." && pwd)
work=$(mktemp -d)
trap 'rm -rf "$work"' EXIT
cd "$work" || exit 1
# shellcheck source=tools/checks/expecting.sh
. "$tools/checks/expecting.sh"

# The toolchain's place: notes what begins and ends, and which library is lacking below a crate. The crates that the file
# `together` names wait for one another, one that `slow` names takes long, and one that `broken` or `full` names fails.
mkdir bin
cat >bin/rt <<'RT'
#!/usr/bin/env bash
set -u
work=$(dirname "$(dirname "$(readlink -f "$0")")")
name=$(basename "$PWD")
if [ "$1" = try ]; then
    echo "$PWD: $*" >"$work/tried"
    echo 'a row'
    printf 'checked: ended status=5\nrun=ended status=5 runners=1 proved=no\n' >&2
    exit 5
fi
[ "$(cat out/rlib/stamp 2>/dev/null)" != "$(cat src/lib.rt)" ] || exit 0
for below in $(sed -n "s/^$name: *//p" ../../crates.txt); do
    [ "$below" = kit ] || [ -e "../$below/out/rlib/stamp" ] || echo "$name lacks $below" >>"$work/notes"
done
echo "begin $name" >>"$work/notes"
echo "$name" >>"$work/begun"
echo $$ >"$work/number"
for line in {1..30}; do echo "line $line of $name"; done
grep -qx "$name" "$work/slow" && sleep 2
sleep 0.1
all=$(wc -l <"$work/together")
for _ in {1..300}; do
    grep -qx "$name" "$work/together" && [ "$(grep -cxf "$work/together" "$work/begun")" -lt "$all" ] || break
    sleep 0.1
done
grep -qx "$name" "$work/broken" && exit 1
grep -qx "$name" "$work/full" && { echo 'cannot write: No space left on device'; exit 2; }
mkdir -p out/rlib
if [ "$1" = run ]; then
    printf '#!/bin/sh\necho "the program: $*"\nexit 3\n' >"out/$name"
    chmod +x "out/$name"
else
    cp src/lib.rt out/rlib/stamp
fi
echo "end $name" >>"$work/notes"
[ "$1" = lib ]
RT
chmod +x bin/rt
export PATH=$work/bin:$PATH

# A tree in which low is below all, left, middle and right stand side by side, and the program does not stand on tests.
mkdir -p tree/tools/build tree/.git
cp "$tools/../station" tree
cp "$tools"/build/{build,build_plan,build_rooms,build_runs,crate_list,try_unproved}.py tree/tools/build
echo 'Handles allowed: none.' >tree/HANDLES
cat >tree/crates.txt <<'CRATES'
# a tree
low: kit
left: low
middle: low kit
right: low
top: left middle right
tests: top
station_program: top
CRATES
for name in low left middle right top tests station_program; do
    mkdir -p "tree/crates/$name/src"
    echo "$name" >"tree/crates/$name/src/lib.rt"
done
: >notes && : >slow && : >broken && : >full && : >together

# The most crates that were under way at once.
most_at_once() {
    awk '/^begin/ { now++; if (now > most) most = now } /^end/ { now-- } END { print most }' notes
}

# Begins anew with one more line in a crate, which the file of the second word may name.
change() {
    echo changed >>"tree/crates/$1/src/lib.rt"
    : >notes && : >slow && : >broken && : >full && : >together
    [ $# = 1 ] || echo "$1" >"$2"
}

# Ends a run in the background by a signal, once it has begun with a crate, and prints what it printed.
interrupt() {
    local signal=$1 crate=$2 run status
    env --default-signal=INT tree/station pages >said 2>&1 &
    run=$!
    until grep -qx "begin $crate" notes; do sleep 0.1; done
    kill "-$signal" "$run"
    wait "$run" 2>/dev/null
    status=$?
    cat said
    return "$status"
}

# Whether the toolchain's run that began last still goes on.
goes_on() {
    kill -0 "$(cat number)" 2>/dev/null
}

# The crates that a plan begins at once, by so many processors and GB of memory, once those begun before stand.
planned() {
    PYTHONPATH=tree/tools/build python3 - "$@" <<'PYTHON'
import sys
import build_plan, crate_list
crates = crate_list.needed('tree')
plan = build_plan.Plan(crates, build_plan.tasks_of(crates, 'tree/crates'), int(sys.argv[1]), int(sys.argv[2]) * 10**9)
while plan.left:
    begun = [f'{name}*{processes}' for name, processes in iter(plan.begin, None)]
    print(*begun, end='; ')
    for name in [*plan.running]:
        plan.end(name)
PYTHON
}

# A run while another one works in a crate's folder, until it is said that the first waits for that.
run_beside() {
    local status
    : >said
    flock "tree/crates/$1" timeout 20 sh -c 'until grep -q "in use" said; do sleep 0.1; done' &
    while flock -n "tree/crates/$1" true; do sleep 0.1; done
    tree/station pages >said 2>&1
    status=$?
    cat said
    return "$status"
}

# The run in the background, and one beside it.
two_runs() {
    tree/station one >first 2>&1 &
    until grep -q '^begin' notes; do sleep 0.1; done
    tree/station two && wait
}

echo right >>tree/crates/right/src/lib.rt
expect 'the longest chain first' 0 'low*1; right*1; left*1; middle*1; top*1; station_program*1; ' planned 1 9
expect 'four processors' 0 'low*4; right*1 left*1 middle*2; top*4; station_program*4; ' planned 4 9
expect 'memory for two' 0 'low*3; right*1 left*1; middle*3; top*3; station_program*3; ' planned 4 3
expect 'little memory' 0 'low*1; right*1; left*1; middle*1; top*1; station_program*1; ' planned 4 1
expect 'help' 0 'Jofitrana*docs/USING.md*' tree/station help
expect 'the same without words' 0 '' cmp <(tree/station help) <(tree/station)
expect 'the lines of it' 0 '' test "$(tree/station --help | wc -l)" -le 40
expect 'nothing was proved for it' 0 '' cmp notes /dev/null

printf '%s\n' right left middle | head -n "$(nproc)" >together
expect 'a program that is built first' 3 'station: proves and builds *
station: 0 min, 0 of 6 crates: proving low
station: 0 min, 1 of 6 crates: low proved; proving *
station: 0 min, 5 of 6 crates: top proved; proving station_program
station: the program is proved and built, after 0 min
the program: pages a b' tree/station pages 'a b'
expect 'no crate before those below it' 1 '' grep lacks notes
expect 'no crate that the program does not stand on' 1 '' grep tests notes
expect 'crates side by side' 0 "$(($(nproc) < 3 ? $(nproc) : 3))" most_at_once
expect 'nothing is left of the copies' 1 '' test -e tree/.git/station_build
expect 'what is built stands' 3 'the program: make 7' tree/station make 7
change right
expect 'a change' 3 '*the program: pages' tree/station pages
expect 'what a change leaves alone' 1 '' grep -E 'low|left|middle' notes

change middle broken
echo right >>slow && echo changed >>tree/crates/right/src/lib.rt
expect 'a crate that is not proved' 70 "*
station: middle is not proved and built. Its log */out/logs/middle.log ends:
line 11 of middle
*
line 30 of middle" tree/station pages
expect 'the others are ended' 1 '' goes_on
change middle full
expect 'a full disk' 70 '*No space left on device
station: the disk is full, with * MB left: *' tree/station pages
change low
expect 'a disk that is full before' 70 '*station: the disk is full, with * MB left: *' \
    env PYTHONPATH=tree/tools/build python3 -c 'import build; build.LEAST_DISK = 1 << 60; exit(build.main([]))'

change low slow
expect 'a line each while' 0 '*0 of 6*0 of 6*0 of 6*' env PYTHONPATH=tree/tools/build python3 -c '
import build; build.TELL_EVERY = 0.5; build.main(["/bin/true"])'
change left
expect 'a crate in use' 3 '*station: left is in use by another run of rt: waiting for it
*the program: pages' run_beside left
change low slow
expect 'a second run waits' 3 'station: another ./station proves and builds the program: waiting for it
the program: two' two_runs
expect 'the first is not disturbed' 0 '*the program: one' cat first
for signal in INT TERM; do
    change top slow
    expect "a run that $signal ends" $((128 + $(kill -l $signal))) '*
station: stopped; what was built is kept, *' interrupt $signal top
    expect 'its work has ended' 1 '' goes_on
done
change left
echo top >slow && echo changed >>tree/crates/top/src/lib.rt
expect 'a run that is killed' 137 '*' interrupt KILL top
expect 'the next run goes on' 3 '*the program: pages' tree/station pages
expect 'each crate was proved once' 0 $'begin left\nbegin top\nbegin station_program' grep begin notes
expect 'nothing is left of its copies' 1 '' test -e tree/.git/station_build

mkdir examples && : >examples/week.toml && : >week.schedule
expect 'a try' 5 'station: unproved: *: ./station replay examples/week.toml week.schedule none
a row' tree/station try replay examples/week.toml week.schedule none
expect 'what it hands over' 0 "$work/tree/crates/station_program: try * --data 1-week.toml=$work/examples/week.toml \
--data week.schedule=$work/week.schedule -- replay 1-week.toml week.schedule none" cat tried
rm tried
for command in station copy import task install; do
    expect "a try of $command" 64 'station: *; try takes replay, *' tree/station try "$command" a b
done
expect 'no try of them' 1 '' test -e tried
# The verdict on a program for arm64 is held against the one for x86-64, word by word, but for the processor.
cp -r "$tools"/build/{build_arm64.py,cross_arm64.py,arm64} tree/tools/build
mkdir -p tree/out/arm64 tree/out/logs
first='logic=proved functions=9 axioms=58 target=x86_64-unknown-linux-gnu cpu=x86-64 rests=1'
verdict='logic=proved functions=9 axioms=58 target=aarch64-unknown-linux-gnu cpu=armv8-a rests=1'
echo "$first" >tree/out/arm64/first_verdict

# Prints the verdict on a program for arm64 of which the toolchain has said this.
held() {
    echo "$1" >tree/out/logs/arm64.log
    tree/tools/build/build_arm64.py --verdict
}
differs='station: the verdict for arm64 is not the one for x86-64'
expect 'a verdict for arm64' 0 "$verdict" held "$verdict"
expect 'one with an axiom more' 70 "$differs: axioms=59, in place of axioms=58" held "${verdict/=58/=59}"
expect 'one with a word less' 70 "$differs: nothing, in place of rests=1" held "${verdict/ rests=1/}"
expect 'one with a word more' 70 "$differs: trusts=1, in place of nothing" held "$verdict trusts=1"
expect 'one for x86-64' 70 'station: the toolchain gives no verdict for aarch64-*' held "$first"
expect 'no proof' 70 "station: the toolchain gives no verdict for aarch64-*: ''" held "${verdict/proved/not-proved}"

# Runs Python on the building of a program for arm64, over a C library of no files.
building_arm64() {
    PYTHONPATH=tree/tools/build python3 -c "import functools, types, build_arm64, cross_arm64
cross = types.SimpleNamespace(files=[])
$1"
}
stands='exit(not build_arm64.stands(cross))'
noting='open(build_arm64.BUILT, "w").write(build_arm64.sums(cross, build_arm64.PROGRAM))'
cp tree/station tree/out/arm64/station_program
building_arm64 "$noting"
expect 'the program for arm64 that was built' 0 '' building_arm64 "$stands"
change low
expect 'the one of earlier sources' 1 '' building_arm64 "$stands"
building_arm64 "$noting"
echo >>tree/tools/build/arm64/args.c
expect 'the one of earlier C functions' 1 '' building_arm64 "$stands"
building_arm64 "$noting"
echo >>tree/out/arm64/station_program
expect 'another program in its place' 1 '' building_arm64 "$stands"
# A gate whose toolchain has kept the proof of the program for x86-64 prints no verdict of it: the program is proved once more.
kept_verdict() {
    building_arm64 "def call(*words):
    crate.out.write('$first\n')
    return $1
crate = types.SimpleNamespace(below=lambda: [types.SimpleNamespace(folder='$2')], words=list, call=call)
rt = types.SimpleNamespace(KIT='kit', rtlib=types.SimpleNamespace(RATTLE='rattle'))
print('verdict:', build_arm64.kept_verdict(rt, crate))"
}
mkdir -p stamped/out/rlib
touch stamped/out/rlib/stamp
expect 'the verdict on a program whose proof was kept' 0 "station: proves the program *verdict: $first" kept_verdict 0 unstamped
expect 'none if it fails' 0 '*verdict: ' kept_verdict 1 unstamped
expect 'none over libraries that ./station has built' 0 'verdict: ' kept_verdict 0 stamped
expect 'no C library for arm64' 69 'station: the C library for arm64 is missing (*); on Debian 12: apt install libc6-dev-arm64-cross *' \
    building_arm64 'cross_arm64.Cross = functools.partial(cross_arm64.Cross, "nowhere"); exit(build_arm64.main([]))'

rm bin/rt
expect 'no toolchain' 70 'station: the toolchain is missing: *' env PATH=/usr/bin:/bin tree/station pages

conclude
