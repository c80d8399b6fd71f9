#!/usr/bin/env bash
# Tries that no wrong body passes try_edits.py unless it was refused, with a script in the toolchain's place; that one which
# cannot be made is named; that what the gate does is told apart; that a case of a table fails where it has to, with a script
# in the program's place; that a page which is not what the definitions make it is refused; and that a script is named whose
# files are not there, and a list of laws whose module is gone. The last line is 'N passed, M failed', and the status is 1 if any failed.
set -u
tools=$(cd "$(dirname "$0")/.." && pwd)
work=$(mktemp -d)
trap 'rm -rf "$work"' EXIT
cd "$work" || exit 1
# shellcheck source=tools/checks/expecting.sh
. "$tools/checks/expecting.sh"

mkdir bin
# A toolchain in which a function is proved if its body has the word of each of its clauses, and what it calls is proved.
mkdir -p kit/bin
: >kit/KIT-ID
cat >kit/bin/rtlib.py <<'RTLIB'
import hashlib, os, pathlib, re
KIT = os.path.dirname(os.path.dirname(os.path.realpath(__file__)))
RATTLE, PARTS, STALE = f"{KIT}/bin/rattle", ("src", "specs", "proofs"), re.compile("Run the lower steps again")

def guarded():
    return []

class Crate:
    def __init__(self, top, name, deps):
        self.folder, self.name, self.deps = f"{top}/crates/{name}", name, deps
        self.rlib, self.kept = f"{self.folder}/out/rlib/{name}.rlib", pathlib.Path(self.folder, "out/rlib/stamp")

    def below(self):
        return [it for dep in self.deps for it in [*dep.below(), dep]]

    def words(self, flags, keeps):
        return ["--crate-name", self.name, *flags]

    def stamp(self):
        files = sorted(it for part in PARTS for it in pathlib.Path(self.folder, part).rglob("*") if it.is_file())
        told = [it.read_bytes() for it in files], [it.stamp() for it in self.deps]
        return hashlib.sha256(repr(told).encode()).hexdigest()

    def is_built(self):
        return self.kept.is_file() and self.kept.read_text() == self.stamp()

def crates_below(top):
    known = {}
    for line in pathlib.Path(top, "crates.txt").read_text().splitlines():
        name, _, deps = line.partition(":")
        known[name] = Crate(top, name, [known[it] for it in deps.split()])
    return [*known.values()]
RTLIB
cat >kit/bin/rattle <<'RATTLE'
#!/usr/bin/env python3
import os, pathlib, re, sys
crate, text = sys.argv[sys.argv.index("--crate-name") + 1], pathlib.Path("src/lib.rt").read_text()
specs = pathlib.Path("specs/Word.antt").read_text().split() if os.path.isdir("specs") else []
if "--incremental" in sys.argv:
    os.makedirs(sys.argv[sys.argv.index("--incremental") + 1], exist_ok=True)
constants = dict(re.findall(r"const (\w+): u8 = (\w+);", text))
specs = [constants.get(word, word) for word in specs]
if "compiles not" in text:
    sys.exit(print("src/lib.rt:1:1: error[E0]: it compiles not") or 1)
unproved = set()
for name, clauses, body in re.findall(r"fn (\w+)\(\)\n((?: [^\n]*\n)*)\{\n(.*?)\n\}", text, re.S):
    body += "".join(value for constant, value in constants.items() if constant in body)
    asked = dict(re.findall(r"ensures (\w+) \{ (\w+) \}", clauses))
    asked = {clause: specs[0] if specs and word == "Word" else word for clause, word in asked.items()}
    goals = ", ".join(f"`returns-clause-{clause}`" for clause, word in asked.items() if word not in body)
    called = next((it for it in unproved if f"{it}()" in body), None)
    why = f"no proof: `search` did not prove {goals}" if goals else f"no proof: it calls `{crate}::{called}`, which is not proved"
    unproved |= {name} if goals or called else set()
    print(f"fn {crate}::{name}: {why if name in unproved else 'proved'}")
print("logic=not-proved" if unproved else "logic=proved")
sys.exit(1 if unproved else 0)
RATTLE
cat >bin/rt <<'RT'
#!/bin/sh
case $1 in
    doc) echo "$(dirname "$(dirname "$(readlink -f "$0")")")/kit/START-HERE.md" ;;
    lib) PYTHONPATH=$(dirname "$(dirname "$(readlink -f "$0")")")/kit/bin python3 -c '
import os, pathlib, rtlib
crate = next(it for it in rtlib.crates_below("../..") if it.name == os.path.basename(os.getcwd()))
pathlib.Path(crate.rlib).mkdir(parents=True, exist_ok=True)
pathlib.Path(crate.rlib, "format").touch()
crate.kept.write_text(crate.stamp())' ;;
esac
RT
chmod +x bin/rt kit/bin/rattle

# A tree in which low is below high, high has a function that calls another, and apart a constant.
mkdir -p tree/tools/{checks,build} tree/crates/{low,high,apart}/{src,must-fail,more-edits} tree/crates/high/specs
cp "$tools"/checks/{rooms,try_edits,noted_edits,edit_groups,edit_checks,edit_verdicts,applied_edits}.py tree/tools/checks
cp "$tools"/build/{build_plan,crate_list}.py tree/tools/build
printf 'low:\nhigh: low\napart:\n' >tree/crates.txt
echo '/crates/*/out/' >tree/.gitignore
printf 'pub fn least()\n    ensures is_zero { zero }\n{\n    zero\n}\n' >tree/crates/low/src/lib.rt
echo 'five' >tree/crates/high/specs/Word.antt
cat >tree/crates/high/src/lib.rt <<'LIB'
pub fn count()
    ensures is_one { one }
    ensures is_two { two }
{
    one + two
}

pub fn total()
    ensures is_three { three }
{
    count() + three
    + four
}

pub fn last()
    ensures is_word { Word }
{
    five
}
LIB
cat >tree/crates/apart/src/lib.rt <<'LIB'
const LEAST: u8 = seven;

pub fn least()
    ensures is_seven { seven }
{
    LEAST
}

pub fn above()
    ensures is_eight { eight }
{
    least() + eight
}

pub fn other()
    ensures is_ten { ten }
{
    ten
}
LIB

# Writes a wrong body of a crate: its name, the file, the text to find, what takes its place, and a clause if one is meant.
wrong_body() {
    printf "file: %s\nold: %s\nnew: %s\n${5:+# clause: $5\n}" "$2" "$3" "$4" >"tree/crates/$1.edit"
}

try_edits() {
    PATH=$work/bin:$PATH JOFITRANA_EDITS=$work/refused timeout 300 tree/tools/checks/try_edits.py --jobs 1 "$@"
}

wrong_body low/must-fail/not_zero src/lib.rt '    zero' '    none'
wrong_body high/must-fail/not_two src/lib.rt 'one + two' 'one' is_two
wrong_body high/more-edits/not_one src/lib.rt 'one + two' 'two' is_one
wrong_body high/more-edits/not_three src/lib.rt 'count() + three' 'count()'
wrong_body high/more-edits/another_word specs/Word.antt five six
expect 'wrong bodies over a library that is not built' 3 '*--build builds them: low' try_edits high
expect 'wrong bodies in groups, of which two change one function' 0 $'building low
high: * s: as it stands
high: * s: not_two not_three
high: * s: another_word
high: * s: not_one
4 of 4 wrong bodies of 1 crates were refused; *' try_edits --build high
expect 'the same again' 0 '4 of 4 wrong bodies of 1 crates were refused (4 of them before); 0.0 minutes of processor' try_edits high
wrong_body high/more-edits/not_three src/lib.rt 'count() + three' 'count() + 3'
expect 'a wrong body that is changed' 0 $'*as it stands\n*: not_three\n4 of 4 *(3 of them before)*' try_edits high
echo >>tree/crates/high/src/lib.rt
expect 'a crate that is changed' 0 $'*not_two not_three\n*4 of 4 wrong bodies of 1 crates were refused; *' try_edits high
echo >>tree/crates/low/src/lib.rt
expect 'a crate below that is changed' 3 '*--build builds them: low' try_edits high
expect 'a crate over one below that is changed' 0 $'*not_two not_three\n*4 of 4 wrong bodies of 1 crates were refused; *' try_edits --build high
rm tree/crates/low/out/rlib/stamp
touch tree/crates/low/out/rlib/low.rlib/format
expect 'a library as the gate leaves it' 0 '4 of 4 *' try_edits high
touch tree/crates/low/src/lib.rt
expect 'a library that is older than its source' 3 '*--build builds them: low' try_edits high
expect 'a library that is built anew' 0 '*building low*4 of 4 *' try_edits --build high

rm -r refused
wrong_body high/more-edits/not_four src/lib.rt '    + four' '    '
expect 'a wrong body that hides behind what its function calls' 1 $'*: not_two not_four\nhigh: * s: not_four
high: * s: not_four, from nothing
high/more-edits/not_four.edit: NOT REFUSED: its crate is still proved with it\n*: not_one not_three\n4 of 5 *' try_edits high
rm tree/crates/high/more-edits/not_four.edit
rm -r refused
wrong_body high/more-edits/compiles_not src/lib.rt '    + four' '    compiles not'
expect 'a wrong body that does not compile' 1 $'*: not_two compiles_not\nhigh: * s: not_two\nhigh: * s: compiles_not\nhigh/more-edits/compiles_not.edit: BAD EDIT: src/lib.rt:1:1: error\[E0\]*\n*: not_one not_three\n4 of 5 *' try_edits high
wrong_body high/more-edits/compiles_not src/lib.rt 'five six' ''
expect 'a wrong body that cannot be made' 1 $'high/more-edits/compiles_not.edit: BAD EDIT: src/lib.rt has 0 times: five six\n4 of 5 *' try_edits high
rm tree/crates/high/more-edits/compiles_not.edit
wrong_body high/must-fail/not_two src/lib.rt 'one + two' 'one' is_one
expect 'a wrong body that is refused at another clause' 1 \
    $'*high/must-fail/not_two.edit: REFUSED ELSEWHERE: not at the clause is_one, but at returns-clause-is_two\n3 of 4 *' try_edits high
wrong_body high/must-fail/not_two src/lib.rt 'one + two' 'one' is_two
sed -i.kept '/is_three/d' tree/crates/high/src/lib.rt
expect 'a wrong body whose clause is gone, in a group' 1 $'*not_two not_three\n*
high/more-edits/not_three.edit: NOT REFUSED: *\n3 of 4 wrong bodies of 1 crates were refused*' try_edits high
sed 's/five$/six/' tree/crates/high/src/lib.rt.kept >tree/crates/high/src/lib.rt
expect 'a crate that is not proved as it stands' 1 $'*high is not proved as it stands: *\n0 of 4 *' try_edits high
mv tree/crates/high/src/lib.rt.kept tree/crates/high/src/lib.rt
wrong_body apart/more-edits/another_least src/lib.rt 'u8 = seven' 'u8 = nine'
wrong_body apart/more-edits/not_eight src/lib.rt '+ eight' ''
wrong_body apart/more-edits/not_ten src/lib.rt '    ten' '    '
expect 'a constant, and a caller of the function that has it' 0 $'*: another_least not_ten
apart/more-edits/another_least.edit: refused: at returns-clause-is_seven\n*apart: * s: not_eight\n*3 of 3 *' try_edits --each apart
sed -i 's/is_seven { seven }/is_seven { seven }\n    ensures is_least { LEAST }/' tree/crates/apart/src/lib.rt
expect 'a constant that a clause has' 0 $'*: another_least\napart: * s: not_eight not_ten\n3 of 3 *' try_edits apart
cp tree/crates/apart/src/lib.rt apart.kept
mkdir tree/crates/apart/specs
printf 'LEAST\n-- TheConstants.{LEAST}\n' >tree/crates/apart/specs/Word.antt
sed -i '/is_seven/d; s/is_eight { eight }/is_eight { Word }/; s/least() + eight/seven + eight/' tree/crates/apart/src/lib.rt
wrong_body apart/more-edits/not_eight src/lib.rt 'seven + eight' 'eight'
expect 'a constant that only a definition has' 0 \
    $'*apart/more-edits/another_least.edit: refused: at returns-clause-is_eight\n*3 of 3 *' try_edits --each apart
mv apart.kept tree/crates/apart/src/lib.rt
rm -r tree/crates/apart/specs
wrong_body apart/more-edits/not_eight src/lib.rt '+ eight' ''
expect 'a crate that is none' 2 'no crate: none' try_edits none

# A checkout, in which the file names a commit.
in_git() {
    git -C tree -c user.name=a -c user.email=a@example.org "$@" >git.log 2>&1 || cat git.log >&2
}
in_git init -q
in_git add .
in_git commit -qm one
echo 'high none' >tree/tools/checks/tried_edits.txt
expect 'a commit that is not known' 2 '*names commit none, which is not known here*' try_edits --changed
in_git commit -q --allow-empty -m left
echo "high $(git -C tree rev-parse HEAD)" >tree/tools/checks/tried_edits.txt
in_git reset -q --soft HEAD~
expect 'a commit that was left out of the history' 2 '*names commit *, which is not known here or not in the history of this one*' \
    try_edits --changed
rm tree/tools/checks/tried_edits.txt
touch tree/new
expect 'all wrong bodies of a checkout with a change' 0 $'*8 of 8 wrong bodies of 3 crates were refused*\nnothing is noted*' \
    try_edits --all --note
rm tree/new
expect 'all wrong bodies of a checkout' 0 '8 of 8 wrong bodies of 3 crates were refused*before)*' try_edits --all --note
expect 'the commit of that checkout' 0 "*# *apart $(git -C tree rev-parse HEAD)
high $(git -C tree rev-parse HEAD)
low $(git -C tree rev-parse HEAD)" cat tree/tools/checks/tried_edits.txt
expect 'no change since that commit' 0 $'0 crates differ*\n0 of 0 wrong bodies of 0 crates were refused*' try_edits --changed
printf '\n    // in other words\n' >>tree/crates/apart/src/lib.rt
expect 'a change of comments alone' 0 $'0 crates differ*\n0 of 0 *' try_edits --changed
echo 'u8' >>tree/crates/apart/src/lib.rt
expect 'a change of another line too' 0 '1 crates differ from what is noted: apart*' try_edits --changed
git -C tree checkout -q -- crates/apart
sed -i '/^apart/d' tree/tools/checks/tried_edits.txt
expect 'a crate of which none is noted' 0 '1 crates differ from what is noted: apart*' try_edits --changed --note
expect 'its commit' 0 "apart $(git -C tree rev-parse HEAD)" grep apart tree/tools/checks/tried_edits.txt
wrong_body high/more-edits/not_four src/lib.rt '    + four' '    '
in_git add crates
in_git commit -qm two
expect 'one crate with a wrong body more' 1 $'1 crates differ from what is noted: high\n*: NOT REFUSED: *\n3 of 4 wrong bodies of 1 crates *' \
    try_edits --changed --note
expect 'its commit, which stays' 0 "high $(git -C tree rev-parse HEAD~)" grep high tree/tools/checks/tried_edits.txt

# What the gate does, by the words of a process and the folder that it runs in: of the crate, of a copy, or of one with a wrong body.
mkdir -p gate/{crates/a,copy,wrong}/src
echo 'one' | tee gate/crates/a/src/lib.rt >gate/copy/src/lib.rt
echo 'two' >gate/wrong/src/lib.rt
expect 'the kinds of what the gate does' 0 $'proof\nproof\ntests\nfirst body\nfirst body\nfurther bodies\nsecond proof' \
    python3 -B - "$tools/../bench" <<'KINDS'
import pathlib, sys
sys.path.insert(0, sys.argv[1])
import gate
gate.CRATES, tasks = pathlib.Path("gate/crates").resolve(), gate.Tasks()
for words, folder in [("build", "crates/a"), ("check", "crates/a"), ("build --test", "crates/a"), ("check", "wrong"),
                      ("check --incremental K", "wrong"), ("check --incremental K", "wrong"), ("check --incremental K", "copy")]:
    print(tasks.task_by(["rattle", *words.split(), "--crate-name", "a"], pathlib.Path("gate", folder).resolve())[1])
KINDS

# Whether a wrong body of these lines can be made.
made_edit() {
    printf 'file: %s\nold: %s\nnew: b\n' "$1" "$2" >edits/crates/a/more-edits/x.edit
    edits/tools/checks/applied_edits.py
}

mkdir -p edits/tools/checks edits/crates/a/{src,more-edits}
cp "$tools/checks/applied_edits.py" edits/tools/checks
printf 'one\ntwo\ntwo\n' >edits/crates/a/src/lib.rt
expect 'a wrong body that can be made' 0 '' made_edit src/lib.rt one
expect 'a wrong body of a file that is gone' 1 'a/more-edits/x.edit: there is no src/old.rt' made_edit src/old.rt one
expect 'a wrong body of a line that is gone' 1 'a/more-edits/x.edit: src/lib.rt has 0 times: three' made_edit src/lib.rt three
expect 'a wrong body of a line that stands twice' 1 'a/more-edits/x.edit: src/lib.rt has 2 times: two' \
    made_edit src/lib.rt two
mv edits/crates/a/more-edits/x.{edit,edt}
expect 'a wrong body with another name' 1 'a/more-edits/x.edt: its name does not end in .edit, so that nothing tries it' \
    edits/tools/checks/applied_edits.py
rm edits/crates/a/more-edits/x.edt

# Laws that a crate above cites, and modules that a list of them names.
mkdir -p laws/tools/checks laws/crates/{low,high}/proofs
cp "$tools/checks/cited_laws.py" laws/tools/checks
echo 'use Rattle.low.proofs.Sums.{sum_rises}' >laws/crates/high/proofs/Uses.antt
touch laws/crates/low/proofs/Sums.antt
# shellcheck disable=SC2016  # the text has these signs
printf '%s\n' '## Laws for the crates above' '`proofs::Sums` (`sum_rises`)' >laws/crates/low/README.md
expect 'a law that is listed' 0 '' laws/tools/checks/cited_laws.py
mv laws/crates/low/proofs/{Sums,Totals}.antt
expect 'a list of laws of a module that is gone' 1 'crates/low/README.md names proofs::Sums, which is not there' \
    laws/tools/checks/cited_laws.py
mv laws/crates/low/proofs/{Totals,Sums}.antt
sed -i 's/(.*)//' laws/crates/low/README.md
expect 'a law that is not listed' 1 'crates/low/README.md does not list Sums.sum_rises, which a crate above cites' \
    laws/tools/checks/cited_laws.py

# A script that was moved, and names files by its own place.
mkdir -p moved/tools/checks/deep
touch moved/tools/checks/there.sh
# shellcheck disable=SC2016  # the script expands it
printf '%s\n' '#!/usr/bin/env bash' 'here=$(cd "$(dirname "$0")/.." && pwd)' '. "$here/checks/there.sh"' >moved/tools/checks/script.sh
expect 'a script in its place' 0 '' "$tools/checks/named_files.py" moved/tools/checks/script.sh
mv moved/tools/checks/{,deep/}script.sh
# shellcheck disable=SC2016  # it is printed so
expect 'a script that was moved' 1 '*/deep/script.sh: $here/checks/there.sh is not there' \
    "$tools/checks/named_files.py" moved/tools/checks/deep/script.sh

cat >stand_in <<'PROGRAM'
#!/usr/bin/env bash
case $1 in
    print) echo told ;;
    fail) exit 1 ;;
    keep) printf '\1\2' >kept ;;
    call)
        exec 3<>"/dev/tcp/${2%:*}/${2#*:}"
        echo ask >&3
        read -r answer <&3
        echo "$answer"
        ;;
esac
PROGRAM
chmod +x stand_in

# Runs a table of one case over the stand-in, which ends well unless a key says otherwise.
try_case() {
    printf '[[case]]\nname = "a case"\nstatus = 0\n%s\n' "$1" >table.toml
    "$tools/checks/try_rows.py" ./stand_in table.toml
}

called='words = "call {address}"
prints = "yes\n"'
expect 'a case that holds' 0 '1 passed, 0 failed' try_case $'words = "print"\nprints = "told\\n"'
expect 'a case of a file' 0 '1 passed, 0 failed' try_case $'words = "keep"\nprints = ""\nleaves.kept = "0102"'
expect 'a case of a line' 0 '1 passed, 0 failed' try_case "$called
line = \"hears 'ask' 0a\nsays 'yes' 0a\""
expect 'a case with another output' 1 $'*-said\n+told\n0 passed, 1 failed' try_case $'words = "print"\nprints = "said\\n"'
expect 'a case with another status' 1 $'*\nstatus 1 in place of 0\n0 passed, 1 failed' try_case $'words = "fail"\nprints = ""'
expect 'a case without its file' 1 $'*\nkept is missing\n0 passed, 1 failed' \
    try_case $'words = "print"\nprints = "told\\n"\nleaves.kept = "0102"'
expect 'a case with a file that it does not name' 1 $'*\nkept was made\n0 passed, 1 failed' \
    try_case $'words = "keep"\nprints = ""'
expect 'a case with another file' 1 '*kept has 2 bytes, expected 2; they differ from byte 1 on*0 passed, 1 failed' \
    try_case $'words = "keep"\nprints = ""\nleaves.kept = "0103"'
expect 'a case with another line' 1 '*heard 61 73 6b 0a, in place of 62 73 6b 0a*0 passed, 1 failed' try_case "$called
line = \"hears 'bsk' 0a\nsays 'yes' 0a\""
expect 'a case with more on its line' 1 '*heard 0a after the last step*0 passed, 1 failed' try_case "$called
line = \"hears 'ask'\nsays 'yes' 0a\""
expect 'a case with a line that is not quiet' 1 '*in place of 1 quiet waits*0 passed, 1 failed' try_case "$called
line = \"quiet 1\nhears 'ask' 0a\nsays 'yes' 0a\""
expect 'a case that calls' 1 '*a call that the case does not have*0 passed, 1 failed' try_case "$called
line = \"uncalled\""
expect 'a case with a key that is none' 1 '*no key of a case: print*' try_case $'words = "print"\nprints = ""\nprint = ""'
: >table.toml
expect 'a table without a case' 1 '0 passed, 0 failed' "$tools/checks/try_rows.py" ./stand_in table.toml

# A tree of two crates and a ported one of the toolchain. The program's clauses cite definitions of the crate above, which cite
# those below. Two pages list what must be read of them.
mkdir -p pages/tools/pages pages/docs pages/examples pages/crates/low/{src,specs} pages/crates/station_top/{src,specs} rattle/ported/specs
cp -r "$tools"/pages/* pages/tools/pages
printf 'low:\nstation_top: low\n' >pages/crates.txt
echo '{{counts}}' >pages/tools/pages/headline/observer.md
printf '# Definitions\n\n## station_top\n\nIts source.\n' >pages/tools/pages/definitions/sources.md
printf '<!-- counts of TOP by TOP: tools/pages/headline.py -->\n<!-- end of counts -->\n' >pages/README.md
printf -- '-- Counts.\n\n-- how many\nabbrev pub count : N\ncount = 7\n' >rattle/ported/specs/Count.antt
cat >pages/tools/pages/headline/pages.toml <<'PLAN'
[[page]]
name = "LOW"
subject = "beginnings"
title = "What must be read of a beginning"
about = "It begins."
contract = "low/src/lib.rt begin"
[[page.part]]
title = "The beginning"
[[page]]
name = "TOP"
subject = "`replay`"
title = "What must be read of a run"
about = "It runs."
contract = "station_top/src/program.rt run"
[[page.part]]
title = "The end"
roots = ["station_top.Run.Ends"]
[[page.part]]
title = "The run"
PLAN
printf '//! A crate.\nghost use Rattle.low.specs.Number.{none};\npub fn begin() -> u8\n    ensures begun { none }\n{\n    0\n}\n' \
    >pages/crates/low/src/lib.rt
printf -- '-- Numbers.\nuse Rattle.ported.specs.Count.{count}\n\n-- none\nabbrev pub none : N\nnone = 0\n\n-- one\nabbrev pub one : N
one = 1\n\n-- two\nabbrev pub two : N\ntwo = 2\n\n-- counted\nabbrev pub counted : N\ncounted = count\n' >pages/crates/low/specs/Number.antt
cat >pages/crates/station_top/specs/Run.antt <<'RUN'
-- Runs.
use Rattle.low.specs.Number as low
use Rattle.low.specs.Number.{none, two, counted as much}

-- how far it goes, in a field that has the name of a module
pub record Way : Type 0 where
  pub low : low.one

-- ends so
abbrev pub Ends : N -> Way -> N
Ends replay way = none

-- takes so much
abbrev pub Takes : N
Takes = much
RUN
printf '//! A crate.\nmod program;\npub use program::run;\n' >pages/crates/station_top/src/lib.rt
cat >pages/crates/station_top/src/program.rt <<'RUN'
ghost use Rattle.station_top.specs.Run.{Ends, Takes};
pub fn run() -> u8
    requires { Takes }

    // It ends.
    ensures command { Ends result }
{
    0
}
RUN

# A script on definitions, with the toolchain beside `bin`.
on_pages() {
    env PATH="$work/bin:$PATH" "pages/tools/pages/$1.py" "${@:2}"
}

# Whether a page is what the definitions make it, after a change of the tree.
made_page() {
    sed -i "$3" "$2" && on_pages "$1" --check
}

on_pages headline && on_pages definitions
expect 'a page of one definition' 0 1 sed -n 's/.*LOW.md) | beginnings | \([0-9]*\) .*/\1/p' pages/docs/HEADLINE.md
expect 'the counts of a page whose definitions stand on both, and in the toolchain' 0 '5 | 15 | 0 | 0 | 6 | 18 | 1 | 3' \
    sed -n 's/.*TOP.md) | .replay. | \(.*\) |$/\1/p' pages/docs/HEADLINE.md
expect 'the counts in README' 0 '*has 5 definitions in 15 lines*beside 1 in 3 of crates*' cat pages/README.md
expect 'all clauses of a contract' 0 $'    requires { Takes }\n    ensures command { Ends result }' \
    grep '^    [re][en][qs]u' pages/docs/headline/TOP.md
expect 'a definition that is printed once' 0 'pages/docs/headline/LOW.md:none = 0' grep -r '^none = 0' pages/docs/headline
expect 'a definition that a later page names' 0 '*LOW.md#the-beginning-low) ?none?*' cat pages/docs/headline/TOP.md
expect 'a definition of the toolchain that is counted' 0 '| ?KIT/rattle/ported/specs/Count.antt? | 1 | 3 | ?count? |' \
    grep -r --no-filename KIT/ pages/docs/headline
expect 'a name that an import gives' 0 '*?much? is ?counted? of low.*' cat pages/docs/headline/TOP.md
expect 'a type before what speaks of it' 0 $'pub record Way : Type 0 where\nabbrev pub Ends : N -> Way -> N' \
    grep 'pub .*Way' pages/docs/headline/TOP.md
expect 'the pages on the headline as they were made' 0 '' on_pages headline --check
expect 'the page of definitions as it was made' 0 '' on_pages definitions --check
expect 'a definition that nothing cites' 0 '' made_page headline pages/crates/low/specs/Number.antt 's/^two = 2/two = 3/'
expect 'one definition more to read' 1 '*HEADLINE.md is not what*README.md is not what*' \
    made_page headline pages/crates/station_top/specs/Run.antt 's/^Ends replay way = none/Ends replay way = none + two/'
expect 'a definition that says another thing' 1 '*LOW.md is not what*' \
    made_page headline pages/crates/low/specs/Number.antt 's/^none = 0/none = 1/'
on_pages headline
expect 'a clause more' 1 '*HEADLINE.md is not what*TOP.md is not what*' made_page headline pages/crates/low/src/lib.rt \
    's/^    ensures begun.*/&\n    ensures more { one }/;s/{none}/{none, one}/'
on_pages headline
expect 'a definition of the toolchain that grew' 1 '*HEADLINE.md is not what*TOP.md is not what*' \
    made_page headline rattle/ported/specs/Count.antt 's/^count = 7/count =\n    8/'
expect 'a definition of the toolchain that is not there' 1 'ported.Count: no definition of count is found there' \
    made_page headline rattle/ported/specs/Count.antt 's/count/number/'
sed -i 's/number/count/' rattle/ported/specs/Count.antt
mkdir -p bare/bin && cp bin/rt bare/bin
expect 'a toolchain without a crate that is cited' 1 'ported.Count: no definition of count is found there' \
    env PATH="$work/bare/bin:$PATH" pages/tools/pages/headline.py --check
on_pages headline
expect 'a page that is too long' 1 'TOP.md has 15 lines of definitions: more than 11' made_page headline \
    pages/tools/pages/headline/pages.toml 's/^name = "TOP"/&\nmost_lines = 11/'
sed -i '/most_lines/d' pages/tools/pages/headline/pages.toml
: >pages/docs/headline/OLD.md
expect 'a page that no plan has' 1 'docs/headline/OLD.md is no page of tools/pages/headline/pages.toml' on_pages headline --check
rm pages/docs/headline/OLD.md
expect 'a comment that leans on its neighbour' 1 'station_top Run Ends: its comment leans on another: -- the same*' \
    made_page headline pages/crates/station_top/specs/Run.antt 's/^-- ends so/-- the same/'
sed -i 's/^-- the same/-- ends so/' pages/crates/station_top/specs/Run.antt
cat >>pages/crates/station_top/specs/Run.antt <<'RUN'

-- tells a number
pub record Tells : Type 1 where
  pub goes : N → Type 0
  pub goes_none : goes none

-- what is told
abbrev pub told : Tells
told = record {
  goes = λ n. two;
  goes_none = proof;
}

-- a proof
pub proof : N
proof = none
RUN
sed -i 's/^Ends replay way = none/Ends replay way = told/' pages/crates/station_top/specs/Run.antt
on_pages headline
expect 'a value without the proofs of its laws' 0 '  ..' grep -x '  \.\.' pages/docs/headline/TOP.md
expect 'a proof of a law, which no page needs' 1 '' grep 'a proof' pages/docs/headline/TOP.md
expect 'a comment that says another thing' 1 '*DEFINITIONS.md is not what*' \
    made_page definitions pages/crates/station_top/specs/Run.antt 's/^-- ends so/-- ends well/'
on_pages headline && on_pages definitions
expect 'a page on the headline that was edited' 1 '*HEADLINE.md is not what*' \
    made_page headline pages/docs/HEADLINE.md 's/replay/replays/'
expect 'a page of definitions that was edited' 1 '*DEFINITIONS.md is not what*' \
    made_page definitions pages/docs/DEFINITIONS.md 's/well/ill/'
on_pages definitions
expect 'a name of two definitions' 1 'one stands in low and station_top*' \
    made_page definitions pages/crates/station_top/specs/Run.antt '$ a\\n-- another one\nabbrev pub one : N\none = 2'

conclude
