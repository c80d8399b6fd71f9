#!/usr/bin/env bash
# Tries what check finds and what setup writes and says, with a script in the program's place. The last line is 'N passed, M failed',
# and the status is 1 if any failed.
#
#     tools/checks/try_asked.sh
set -u
tools=$(cd "$(dirname "$0")/.." && pwd)
# shellcheck source=tools/checks/expecting.sh
. "$tools/checks/expecting.sh"
folder=$(mktemp -d)
trap 'rm -rf "$folder"' EXIT
cd "$folder" || exit 1
export TZ=UTC

install -m 755 "$tools/checks/answering.sh" program
mkdir answers
cat >rows <<'ROWS'
row 2024-07-01 00:05 5 outTemp=651 highOutTemp=655 lowOutTemp=-48 rain=2 barometer=29921 outHumidity=48 windSpeed=3 windGust=7 windDir=4
row 2024-07-01 00:10 5 outTemp=limit rain=0 windGust=6
row 2024-07-01 00:25 5 outTemp=640 rain=1 barometer=29930 windGust=5
ROWS

# Prints rows of so many minutes each, of which the last is so many minutes old. The third word is how many.
some_rows() {
    local now ago
    now=$(date '+%F %H:%M')
    for ((ago = $3 - 1; ago >= 0; ago--)); do
        printf '%s UTC %+d minutes\n' "$now" $((-$1 * ago - $2))
    done | date -f - "+row %F %H:%M $1 rain=0"
}

# Runs the check on the rows that are listed. A busy machine may take minutes: try_setup.sh holds each limit.
check() {
    "$tools/product/check.py" -p ./program "$@"
}

some_rows 5 3 290 >listed
expect 'a whole day' 0 'JOFITRANA OK - last row * [3-9] minutes ago; the day up to it lacks 0 rows | age=* lacking=0' check a
sed -i '100,104d' listed
expect 'a day that lacks rows' 1 'JOFITRANA WARNING * lacks 5 rows *' check a
expect 'other limits' 0 'JOFITRANA OK * lacks 5 rows *' check -w 15,5 a
sed -i '100,120d' listed
expect 'a day that lacks more' 2 'JOFITRANA CRITICAL * lacks 26 rows *' check a
expect 'another critical limit' 1 'JOFITRANA WARNING * lacks 26 rows *' check -c 60,26 a
some_rows 5 18 290 >listed
expect 'a row that grows old' 1 'JOFITRANA WARNING * [1-5][0-9] minutes ago*' check a
some_rows 5 70 290 >listed
expect 'an old row' 2 'JOFITRANA CRITICAL * 7? minutes ago*' check a
some_rows 30 80 50 >listed
expect 'rows of half an hour, in time' 0 'JOFITRANA OK * 8? minutes ago; the day up to it lacks 0 rows *' check a
some_rows 30 95 50 >listed
expect 'rows of half an hour that grow old' 1 'JOFITRANA WARNING * 9? minutes ago*' check a
some_rows 60 725 26 >listed
expect 'old rows of an hour' 2 'JOFITRANA CRITICAL * 7[23]? minutes ago*' check a
some_rows 60 5 26 | sed '20,22d' >listed
expect 'three rows of an hour that are lacking' 2 'JOFITRANA CRITICAL * lacks 3 rows *' check a
some_rows 5 3 20 | sed '7d' >listed
expect 'an archive that began today' 0 'JOFITRANA OK * lacks 1 rows *' check a
some_rows 5 -4 290 >listed
expect 'a row as of a clock that is a little ahead' 0 'JOFITRANA OK * [0-4] minutes ahead of the clock*' check a
some_rows 5 -30 290 >listed
expect 'a row of the future, and rows that come' 1 'JOFITRANA WARNING * [23]? minutes ahead of the clock*is ahead, *' check a
touch -d '20 minutes ago' a
expect 'a row of the future' 2 'JOFITRANA CRITICAL * [23]? minutes ahead of the clock*was set back*' check a
rm a
cp rows listed
expect 'a row of long ago' 2 'JOFITRANA CRITICAL - last row 2024-07-01 00:25,* lacks 2 rows *' check a

some_rows 5 3 290 >listed
printf 'period = 10\n' >ten.toml
echo 05 >'answers/eeprom read 2D 1'
date '+time %F %T' >answers/time
expect 'a console as it has to be' 0 'JOFITRANA OK * lacks 0 rows | age=*' check --console there:1 a
expect 'what it was asked' 0 $'there:1 time\nthere:1 eeprom read 2D 1' cat asked
expect 'settings of another period' 2 '* a record every 5 minutes, and ten.toml has 10: *' \
    check --settings ten.toml --console there:1 a
echo 0a >'answers/eeprom read 2D 1'
expect 'settings of its period' 0 'JOFITRANA OK *' check --settings ten.toml --console there:1 a
expect 'rows of another period' 2 '* a record every 10 minutes, and the last row has 5: *' check --console there:1 a
expect 'settings that are none' 3 '*rows cannot be read as settings' check --settings rows --console there:1 a
expect 'no settings' 3 '*missing.toml cannot be read as settings' check --settings missing.toml --console there:1 a
echo 05 >'answers/eeprom read 2D 1'
date -d '9 minutes' '+time %F %T' >answers/time
expect 'a console that is ahead' 1 'JOFITRANA WARNING *, [6-9] minutes ahead of this machine*' check --console there:1 a
date -d '10 minutes ago' '+time %F %T' >answers/time
expect 'a console that was set back' 2 'JOFITRANA CRITICAL *, before the last row: it was set back, *' check --console there:1 a
some_rows 5 14 290 >listed
expect 'a console that is behind' 1 'JOFITRANA WARNING *, 1? minutes behind this machine*' check --console there:1 a
rm answers/time
expect 'a console that does not answer' 1 'JOFITRANA WARNING *was asked for its time: link fault *' check --console there:1 a

expect 'a zone that is none' 3 'JOFITRANA UNKNOWN - TZ=Europe/Nowhere is no time zone *' env TZ=Europe/Nowhere "$tools/product/check.py" a
expect 'a zone that is a folder' 3 'JOFITRANA UNKNOWN - TZ=Europe is no time zone *' env TZ=Europe "$tools/product/check.py" a
expect 'a zone that is a rule' 0 'JOFITRANA OK *' env TZ='<+00>-0' "$tools/product/check.py" -p ./program a
expect 'a zone of this system' 0 'JOFITRANA OK *' env TZ=Etc/UTC "$tools/product/check.py" -p ./program a
for name in a.toml a.env a.conf; do
    expect "an archive of the name $name" 3 "JOFITRANA UNKNOWN - $name is named as settings are, *" check "$name"
done
expect 'an archive that is text' 3 'JOFITRANA UNKNOWN - rows holds text, *' check rows
: >listed
expect 'an archive without rows' 2 'JOFITRANA CRITICAL - a has no row' check a
: >refused
expect 'a damaged archive' 2 'JOFITRANA CRITICAL - a: damaged at 352' check a
rm refused
expect 'no program' 3 'JOFITRANA UNKNOWN - the program is missing: ./nowhere' "$tools/product/check.py" -p ./nowhere a
expect 'limits out of form' 3 'JOFITRANA UNKNOWN - usage: *' check -w 5 a
expect 'an option that is none' 3 'JOFITRANA UNKNOWN - usage: *' check -x 5 a
expect 'two archives' 3 'JOFITRANA UNKNOWN - usage: *' check a b

# Prints the 29 bytes of a console's memory from 0x11 on, with summer time off and a period of five minutes, but for the
# places that the words name, as 2D=0a.
memory() {
    local bytes=() place
    for place in {1..29}; do bytes+=(00); done
    for place in 12=01 2D=05 "$@"; do bytes[16#${place%=*}-16#11]=${place#*=}; done
    (IFS= && echo "${bytes[*]}") >'answers/eeprom read 11 29'
}

# Runs setup for the station roof.
set_up() {
    "$tools/product/setup.py" --program ./program --settings etc --archives var "$@" roof there:1
}

rm -r answers
mkdir answers var
echo 'kind 16' >answers/kind
echo 'time set' >'answers/time set'
date '+time %F %T' >answers/time
memory
expect 'a first setup' 0 "First of all: switch the console's summer time off, and set its clock, before the first round.*\
  A console answers at there:1, of kind 16.
  It keeps a record every 5 minutes.
  A click of its rain bucket is 0.01in.
  Its summer time is off, as it has to be.
  Its zone is number 0 of its own list; this machine's is UTC+00:00 without summer time.
  Its records are looked through, which may take more than a minute if its memory is full.
  Its clock shows *, as this machine's does without summer time.
  Written: etc/roof.toml
  Written: etc/roof.env
Now make the first round, by: sudo systemctl enable --now jofitrana@roof.timer" set_up
expect 'its settings' 0 $'period = 5\n*\nADDRESS=there:1\nTZ=<+00>-00\nTITLE=roof\nUNITS=us\nBUCKET=0.01in' cat etc/roof.toml etc/roof.env
expect 'a second setup' 0 $'*Kept as it is: etc/roof.toml\n  Kept as it is: etc/roof.env\nNow make *' set_up
memory 2D=1e 2B=10
expect 'a console of another period' 1 '*every 30 minutes.*0.2mm.*! etc/roof.toml has period = 5 in place of period = 30: *' set_up
expect 'settings that are kept' 0 $'period = 5\n*' cat etc/roof.toml
sed -i 's/there/here/' etc/roof.env
expect 'another address' 1 '*! etc/roof.env has ADDRESS=here:1 in place of ADDRESS=there:1: *' set_up
rm -r etc
memory 2D=07 2B=30
expect 'a period and a bucket that are none' 1 '*! Its period is 7 minutes, *! Its rain bucket is of a size *' set_up
expect 'settings without a period' 1 0 grep -c '^period' etc/roof.toml
rm -r etc
memory 12=00 16=01 14=d8 15=ff
expect 'summer time by itself, and a zone of its own' 1 \
    '*! Summer time comes and goes by itself, *run this again*Its zone is UTC-00:24; this*See to each line with ! above*' set_up
memory 13=01 11=15
expect 'summer time by hand, and a zone of the list' 1 '*! Summer time is switched on: *Its zone is number 21 of *' set_up
memory
echo 'kind 17' >answers/kind
expect 'a console of another kind' 1 '*, of kind 17.*! A Vantage Pro or Pro2 has kind 16.*' set_up
echo 'kind 16' >answers/kind

: >asked
date -d '9 hours' '+time %F %T' >answers/time
expect 'a clock that is ahead' 1 \
    '*! Its clock shows *, 9 hours ahead of *Set it before *--set-clock roof there:1*' set_up
expect 'no clock is set unasked' 1 0 grep -c 'time set' asked
some_rows 5 -540 3 >listed
expect 'a clock that is set back' 1 "*Its clock showed *, and was set to this machine's time*" set_up --set-clock
expect 'to what it is set' 0 "there:1 time set @($(date -d '1 minute ago' '+%F %H')|$(date -d '4 seconds' '+%F %H')):*" \
    grep 'time set' asked
head -c 178 /dev/zero >var/roof.archive
some_rows 5 3 9 >listed
: >asked
expect 'a clock that was to be set after a round' 1 '*! Its clock is not set: var/roof.archive has rows, *' set_up --set-clock
expect 'no clock is set after a round' 1 0 grep -c 'time set' asked
expect 'a clock that is ahead after a round' 1 '*9 hours ahead of *Leave it as it is: *' set_up
date -d '4 minutes' '+time %F %T' >answers/time
expect 'a clock that is a little ahead after a round' 1 '*4 minutes ahead of *Set it back *which loses nothing: *--adjust roof*' set_up
cp rows listed
date -d '9 minutes ago' '+time %F %T' >answers/time
expect 'a clock that is behind after a round' 1 '*, 9 minutes behind *To set it forward loses nothing: *' set_up
some_rows 5 3 9 >listed
expect 'a clock that was set back' 1 '*! Its clock shows *, before the last row of *: it was set back.*' set_up
date '+time %F %T' >answers/time
: >listed
: >asked
expect 'a clock that is set before any row' 0 '*Its clock showed *, and was set*Now make *' set_up --set-clock
: >refused
expect 'an archive that is damaged' 1 '*! var/roof.archive: damaged at 352. See DIAGNOSTICS*' set_up
rm var/roof.archive
expect 'settings that are refused' 1 '*! The program refuses etc/roof.toml: settings bad period*' set_up
rm refused
expect 'the zone of a clock without summer time' 1 \
    "*this machine's is UTC+05:30 *! etc/roof.env has TZ=<+00>-00 in place of TZ=<+0530>-05:30: *" env TZ=Asia/Kolkata \
    "$tools/product/setup.py" --program ./program --settings etc --archives var roof there:1
rm -r etc
# In one of these it is summer.
for zone in 'America/New_York/5 hours ahead of' 'Australia/Sydney/10 hours behind'; do
    expect "a clock in ${zone%/*}" 1 "* UTC[-+]??:00 without summer time.*, ${zone##*/} *" env TZ="${zone%/*}" \
        "$tools/product/setup.py" --program ./program --settings etc --archives var roof there:1
done

cat >etc/roof.toml <<'TOML'
period = 5
[calibration.rain]
num = 11
den = 14
[calibration.windSpeed]
num = 11
den = 10
[calibration.outTemp]
num = 9
den = 10
[[change]]
from = "2024-07-01 00:10"
[change.calibration.UV]
num = 9
den = 10
TOML
expect 'settings that round values away' 1 "\
*! etc/roof.toml: ?calibration.rain? loses small values for good, *
  1 becomes 0, 2 becomes 1, 3 becomes 2. Take *
! etc/roof.toml: ?calibration.windSpeed? changes no value below 10, *
! etc/roof.toml: ?change.calibration.UV? loses small values for good, *
  1 becomes 0, 2 becomes 1, 3 becomes 2. Take *
  Kept as it is: etc/roof.toml*" set_up
rm -r etc

expect 'a folder that cannot be made' 1 '*! rows/etc: Not a directory. *' set_up --settings rows/etc
for trouble in 'link fault/nobody answers at there:1' 'task asleep/somebody answers at there:1' 'flood/does not stop sending' \
    "task bad check/the console answered 'task bad check' to: kind"; do
    echo "${trouble%/*}" >answers/kind
    expect "a console that ends as ${trouble%/*}" 1 "*! *${trouble#*/}*" set_up
done
expect 'nothing is written without an answer' 1 '' [ -e etc ]
cp rows var/roof.archive
expect 'an archive of setup that is text' 1 '*! var/roof.archive holds text, *' set_up
expect 'a zone of setup that is none' 1 '*! TZ=Nowhere is no time zone *' env TZ=Nowhere "$tools/product/setup.py" roof there:1
for name in roof.toml roof.env roof.conf roof.archive roof.timer a/b .roof -roof 'a b' a@b ''; do
    expect "a station of the name '$name'" 2 '*usage: *' "$tools/product/setup.py" "$name" there:1
done
for address in there there: there:x 'there :1' "there:1'" ''; do
    expect "the address '$address'" 2 '*usage: *' "$tools/product/setup.py" roof "$address"
done

conclude
