#!/usr/bin/env bash
# Tries the tools beside the program, the units, and that what is installed is taken away again: on a handful of rows with a
# script in the program's place, and with the program itself over modelled consoles. The last line is 'N passed, M failed',
# and the status is 1 if any failed.
#
#     tools/checks/try_tools.sh [PROGRAM]
#
# Without a program it is that of this checkout, which is built first if that is not done yet.
set -u
tools=$(cd "$(dirname "$0")/.." && pwd)
# shellcheck source=tools/checks/served_console.sh
. "$tools/checks/served_console.sh"
prepare "${1-}"
# shellcheck source=tools/checks/expecting.sh
. "$tools/checks/expecting.sh"

# Starts a command that takes long. The first word is its name.
begin() {
    "${@:2}" >"$1.output" 2>&1 &
    begun[$1]=$!
    started+=($!)
}

# Waits for the command of that name, and holds its status and output against what is wanted.
expect_end() {
    wait "${begun[$1]}"
    judge "$1" "$2" "$3" "$?" "$(cat "$1.output")"
}
declare -A begun

# Runs a command on the text of a file.
on() {
    "${@:2}" <"$1"
}

# Starts a console of an odd kind under a name, and sets `port` to its port.
odd_console() {
    hold_port
    start "$1" "$tools/checks/fake_console.py" "${@:2}" "$port"
    await "$1" listens "$port"
}

# Makes a round with a console whose clock was set back, and checks the archive.
round_and_check() {
    "$program" station settings.toml back.archive "$1"
    "$tools/product/check.py" -p "$program" --console "$1" back.archive
}

# Matplotlib lists the fonts of a machine once, and reports it if that takes long. So it is done before it is in the way of a case.
/usr/bin/python3 -c 'import matplotlib.font_manager' 2>/dev/null

# These take some seconds each, in which the rest is tried.
odd_console late --clock '2020-01-01 00:00' --byte 2B=10
begin setup "$tools/product/setup.py" --program "$program" --set-clock --settings talk --archives talk roof "127.0.0.1:$port"
odd_console back --clock '2024-10-27 02:30' --run '2024-10-27 01:00' 24 --run '2024-10-27 02:00' 24
begin check round_and_check "127.0.0.1:$port"
begin salvage "$tools/checks/try_salvage.py" "$program"
begin asked "$tools/checks/try_asked.sh"
begin written "$tools/checks/try_setup.sh"
begin watched "$tools/checks/try_check.py"
begin alerts "$tools/checks/try_alert.py"
begin clocks "$tools/checks/try_clock.py"
begin package "$tools/checks/try_package.sh" "$program"
begin purge "$tools/checks/try_purge.sh"
begin fields "$tools/checks/try_fields.py"
begin stations "$tools/checks/try_stations.py" "$program"
begin new_station "$tools/checks/try_new_station.py" "$program"
begin again "$tools/checks/try_again.py" "$program"
begin use_it "$tools/checks/try_use_it.py" "$program"
begin page "$tools/checks/try_page.py" "$program"
begin shown "$tools/checks/try_page_shown.py" "$program"
begin values "$tools/checks/try_page_values.py" "$program"
begin views "$tools/checks/try_page_views.py" "$program"
begin year "$tools/checks/try_page_year.py" "$program"
begin bad "$tools/checks/try_bad_input.py" "$program"
begin weewx "$tools/checks/try_weewx.py" "$program"
begin weewx_values "$tools/checks/try_weewx_values.py" "$program"
begin sql "$tools/checks/try_sql.py"
mkdir shown path
ln -s "$program" path/jofitrana
begin demo env TMPDIR="$folder/shown" PATH="$folder/path:$PATH" "$tools/product/demo.sh"

cat >rows <<'ROWS'
row 2024-07-01 00:05 5 outTemp=651 highOutTemp=655 lowOutTemp=-48 rain=2 barometer=29921 outHumidity=48 windSpeed=3 windGust=7 windDir=4
row 2024-07-01 00:10 5 outTemp=limit rain=0 windGust=6
row 2024-07-01 00:25 5 outTemp=640 rain=1 barometer=29930 windGust=5
ROWS
cat >summer <<'ROWS'
row 2024-03-31 01:55 5 outTemp=500
row 2024-03-31 02:30 5 outTemp=501
row 2024-10-27 01:55 5 outTemp=502
row 2024-10-27 02:30 5 outTemp=503
row 2024-10-27 03:00 5 outTemp=504
ROWS
{ echo 'open rows 0'; cat rows; echo 'end rows 3 days 1'; } >replay
{ cat rows; echo 'disk fault'; } >refusal
: >nothing

cat >series.py <<'PYTHON'
import sys
import chart
import rows
picture = chart.Picture(rows.read_rows(sys.stdin, rows.Buckets()), chart.AS_IT_IS)
print(*picture.series('outTemp'), *(height for height, _ in picture.bars_of('rain')[0].values()))
PYTHON

# Of 50,000 rows a picture shows few, and among them the extremes, a value by itself, and the gaps beside it.
cat >thinned.py <<'PYTHON'
import datetime
import math
import chart
import rows
five, first = datetime.timedelta(minutes=5), datetime.datetime(2024, 1, 1)
values = [{'outTemp': number * 37 % 101} for number in range(50_000)]
values[31_234], values[20_000:20_400], values[20_200] = {'outTemp': 999}, [{}] * 400, {'outTemp': 50}
picture = chart.Picture([rows.Row(first + number * five, five, one) for number, one in enumerate(values)], chart.AS_IT_IS)
series = picture.series('outTemp')
seen = picture.seen(series)
shown = [series[place] for place in seen]
lone = seen.index(20_200)
print(len(seen) < 4_000, {0, 31_234, 49_999} <= {*seen}, math.isnan(shown[lone - 1]), math.isnan(shown[lone + 1]), 100 in shown)
PYTHON

if /usr/bin/python3 -c 'import matplotlib' 2>/dev/null; then
    expect 'what a picture shows of many rows' 0 'True True True True True' env PYTHONPATH="$tools/product" /usr/bin/python3 thinned.py
    expect 'a gap for a value, one for rows, and bars' 0 '65.1 nan nan 64.0 0.02 0.0 0.01' \
        env PYTHONPATH="$tools/product" /usr/bin/python3 series.py <rows
    expect 'a chart' 0 '' on replay "$tools/product/chart.py" --metric chart.svg
    expect 'the title of a chart' 0 1 grep -c -- '<!-- 2024-07-01 00:05 to 2024-07-01 00:25 -->' chart.svg
    expect 'the units of a chart' 0 1 grep -c -- '<!-- °C -->' chart.svg
    expect 'a chart of two panels with a title' 0 '' \
        on rows "$tools/product/chart.py" --title "Roof \$x\$" --panels temperature,rain two.svg
    expect 'that title' 0 1 grep -cF -- "<!-- Roof \$x\$ -->" two.svg
    expect 'its panels' 0 $'Rain\nTemperature' eval "grep -oE '<!-- (Rain|Temperature|Wind) ' two.svg | tr -d '<!\- ' | sort"
    expect 'a panel that is none' 2 "*there is no panel 'snow', *" on rows "$tools/product/chart.py" --panels snow two.svg
    expect 'a chart of pixels' 0 '' on rows "$tools/product/chart.py" chart.png
    expect 'its kind' 0 1 grep -ac PNG chart.png
    expect 'a chart of a refusal' 1 'chart: the program said: disk fault' on refusal "$tools/product/chart.py" chart.png
    expect 'a chart of nothing' 1 'chart: there is no row' on nothing "$tools/product/chart.py" chart.png
    expect 'a picture of another kind' 2 '*ends neither in .png nor in .svg' on rows "$tools/product/chart.py" chart.gif
else
    leave_out 'python3-matplotlib is missing: no chart was tried'
fi

expect 'an export' 0 '' on rows "$tools/product/export.py" table.csv
expect 'a table' 0 "\
stamp,interval (minute),outTemp (degree_F),highOutTemp (degree_F),lowOutTemp (degree_F),rain (inch),barometer (inHg),\
outHumidity (percent),windSpeed (mile_per_hour),windGust (mile_per_hour),windDir (degree_compass)
2024-07-01 00:05,5,65.1,65.5,-4.8,0.02,29.921,48,3,7,90
2024-07-01 00:10,5,,,,0,,,,6,
2024-07-01 00:25,5,64,,,0.01,29.93,,,5," cat table.csv
expect 'a configuration' 0 9 grep -c 'source_field = ' table.conf
expect 'an export to a table that is there' 1 'export: table.csv is there already: *' on summer "$tools/product/export.py" table.csv
rm table.csv
expect 'an export to a configuration that is there' 1 'export: table.conf is there already: *' \
    on summer "$tools/product/export.py" table.csv
expect 'a configuration that is kept' 0 9 grep -c 'source_field = ' table.conf
expect 'no table beside it' 1 '' [ -e table.csv ]
rm table.conf
expect 'an export of small clicks' 0 '' on rows "$tools/product/export.py" --bucket 0.2mm table.csv
expect 'two small clicks' 0 '*,65.1,65.5,-4.8,0.015748,29.921,*' cat table.csv
rm table.*
expect 'an export over both ends of summer time' 3 "\
export: left out: 2024-03-31 02:30 does not come in Europe/Berlin
export: left out: 2024-10-27 02:30 comes twice in Europe/Berlin" on summer "$tools/product/export.py" --zone Europe/Berlin table.csv
expect 'a table in UTC' 0 "\
stamp,time (UTC),time (unix_epoch),interval (minute),outTemp (degree_F)
2024-03-31 01:55,2024-03-31T00:55:00Z,1711846500,5,50
2024-10-27 01:55,2024-10-26T23:55:00Z,1729986900,5,50.2
2024-10-27 03:00,2024-10-27T02:00:00Z,1729994400,5,50.4" cat table.csv
rm table.*
expect 'an export of a refusal' 1 'export: the program said: disk fault' on refusal "$tools/product/export.py" table.csv
expect 'a zone that is none' 2 '*Nowhere is no time zone*' on rows "$tools/product/export.py" --zone Nowhere table.csv

# In the place of the program.
install -m 755 "$tools/checks/answering.sh" program
cp rows listed
export TZ=UTC

# Runs salvage with the program itself.
salvage() {
    "$tools/product/salvage.py" --program "$program" "$@"
}

PYTHONPATH=$tools/checks python3 -c 'import sys, try_salvage
sys.stdout.buffer.write(try_salvage.Image(try_salvage.made_rows()).bytes)' >whole.archive
head -c 8000 whole.archive >cut.archive
cp cut.archive cut.kept
expect 'an archive that is whole' 0 $'salvage: whole.archive is not damaged\nsalvage: copy.archive has its first 26 rows, *' \
    salvage whole.archive copy.archive
expect 'its copy' 0 '' cmp whole.archive copy.archive
expect 'an archive that is cut' 0 "\
row 2024-07-02 00:40 5 outTemp=361 rain=0 *
row 2024-07-02 00:45 5 outTemp=3758 rain=101 *
row 2024-07-03 10:05 5 outTemp=0 rain=0 *
salvage: cut.archive is damaged at 5104
salvage: new.archive has its first 15 rows, the last of 2024-07-02 00:35
salvage: 3 rows behind them can be read. They are printed, and may be wrong: new.archive has none of them
salvage: the other rows behind them are missing. The next round with new.archive adds what the console still has:
salvage: the records later than the last row, out of its last 2,560" salvage cut.archive new.archive
expect 'what was made of it' 0 15 grep -c . <("$program" report new.archive rows 2024-07-01 2024-07-31)
{ head -c 1234 whole.archive; printf '\x0a'; tail -c +1236 whole.archive; } >summary.archive
expect 'an archive that ends within a summary' 0 $'*salvage: summary.archive is damaged at 2992\n* its first 6 rows, *' \
    salvage summary.archive six.archive
expect 'an archive to make that is there' 1 'salvage: new.archive is there already' salvage cut.archive new.archive
expect 'an archive to make that is the damaged one' 1 'salvage: cut.archive is there already' salvage cut.archive cut.archive
expect 'a damaged archive is only read' 0 '' cmp cut.archive cut.kept
rm new.archive
: >refused
expect 'an archive that the program refuses' 1 'salvage: the program does not take new.archive, *: damaged at 352' \
    "$tools/product/salvage.py" --program ./program cut.archive new.archive
rm refused
expect 'a program that reports other rows' 1 'salvage: the program does not take new.archive, *' \
    "$tools/product/salvage.py" --program ./program cut.archive new.archive
expect 'a salvage without the program' 1 '*: the program is missing: ./nowhere' \
    "$tools/product/salvage.py" --program ./nowhere cut.archive new.archive
if command -v flock >/dev/null; then
    expect 'an archive in another program' 1 'salvage: cut.archive is open in another program: *' \
        flock -o cut.archive "$tools/product/salvage.py" --program "$program" cut.archive new.archive
else
    leave_out 'flock is missing: no salvage of an archive in another program was tried'
fi
expect 'a damaged archive that is not there' 1 'salvage: missing.archive: No such file *' salvage missing.archive new.archive
head -c 2000 /dev/zero >zeros.archive
head -c 177 whole.archive >short.archive
for name in zeros short; do
    expect "an archive of $name" 1 "salvage: $name.archive has no row that can be read" salvage "$name.archive" new.archive
done
expect 'what is refused makes no archive' 1 '' [ -e new.archive ]
expect 'a damaged archive that is text' 2 '*rows holds text, *' salvage rows new.archive
for name in new.toml new.env new.conf; do
    expect "an archive to make of the name $name" 2 "*$name is named as settings are, *" salvage cut.archive "$name"
done

mkdir -p prefix/bin
expect 'what is installed' 0 'station: systemd finds no unit below prefix: *' \
    "$tools/build/install.sh" install --prefix prefix --program ./program
expect 'the program installed' 0 '' cmp program prefix/bin/jofitrana
expect 'an export that is installed' 0 '' on rows prefix/bin/jofitrana-export table.csv
expect 'a reader of WeeWX that is installed' 1 'weewx: a: unable to open database file' \
    prefix/bin/jofitrana-weewx rows a --zone UTC --bucket 0.2mm
expect 'a setup that is installed' 2 '*no name of a station*' prefix/bin/jofitrana-setup roof.toml there:1
expect 'a check that is installed' 3 'JOFITRANA UNKNOWN - rows holds text, *' prefix/bin/jofitrana-check rows
expect 'a salvage that is installed' 0 '*new.archive has its first 15 rows, *' \
    prefix/bin/jofitrana-salvage --program "$program" cut.archive new.archive
if /usr/bin/python3 -c 'import jinja2, matplotlib' 2>/dev/null; then
    expect 'a page that is installed' 1 'page: a: disk fault' prefix/bin/jofitrana-page --program "$program" a folder
elif /usr/bin/python3 -c 'import jinja2' 2>/dev/null; then
    expect 'a page that is installed' 1 'chart: *python3-matplotlib' prefix/bin/jofitrana-page a folder
else
    expect 'a page that is installed' 1 'page: *python3-jinja2' prefix/bin/jofitrana-page a folder
fi
if /usr/bin/python3 -c 'import psycopg2' 2>/dev/null; then
    expect 'a writer of tables that is installed' 2 '*required: database' prefix/bin/jofitrana-sql
else
    expect 'a writer of tables that is installed' 1 'sql: *python3-psycopg2' prefix/bin/jofitrana-sql
fi
expect 'a taker of packets that is installed' 6 'link fault' prefix/bin/jofitrana-packets 127.0.0.1:1 5 live.packets
expect 'a demo that is installed' 1 '*demo: the console does not serve; *' \
    env TMPDIR="$folder/shown" prefix/bin/jofitrana-demo ./program
expect 'a manual for each tool' 0 '' diff <(sed -n 's|^link .* bin/||p' "$tools/build/installed.txt") \
    <(sed -n 's|^link .* share/man/man1/\(.*\)[.]1$|\1|p' "$tools/build/installed.txt")
expect 'what is installed again' 0 'station: systemd finds no unit *' "$tools/build/install.sh" install --prefix prefix --program ./program
expect 'what is taken away' 0 '' "$tools/build/install.sh" uninstall --prefix prefix
expect 'what is left' 0 $'prefix\nprefix/bin' find prefix
expect 'nothing to take away' 1 'station: nothing is installed below prefix' "$tools/build/install.sh" uninstall --prefix prefix
cp rows prefix/bin/jofitrana
expect 'a name that is taken' 1 'station: * nothing is changed' "$tools/build/install.sh" install --prefix prefix --program ./program
expect 'a file of that name is kept' 0 '' cmp rows prefix/bin/jofitrana

if command -v dpkg-shlibdeps >/dev/null && git -C "$tools" rev-parse 2>/dev/null; then
    cp -L /bin/true true
    package=$("$tools/build/package.sh" --program ./true)
    expect 'a package' 0 "0.20??????.$(git -C "$tools" rev-list --count HEAD)" dpkg-deb -f "$package" Version
    dpkg-deb --fsys-tarfile "$package" | tar -xO ./usr/share/doc/jofitrana/changelog.gz | gunzip >changelog
    mapfile -t versions < <(sed -n 's/^jofitrana (\(.*\)) .*/\1/p' changelog)
    expect 'the entries of its changelog' 0 20 echo "${#versions[@]}"
    expect 'each version above the one before' 0 '' cmp <(printf '%s\n' "${versions[@]}") \
        <(printf '%s\n' "${versions[@]}" | sort -uVr)
else
    leave_out 'dpkg-dev or the repository of git is missing: no package was tried'
fi

if command -v systemd-analyze >/dev/null; then
    mkdir units && cp "$tools"/../systemd/*@.* units
    sed -i -e "s|^ExecStart=jofitrana[-a-z]* |ExecStart=$folder/program |" \
        -e "s|^ExecCondition=jofitrana |ExecCondition=$folder/program |" units/*
    expect 'the units' 0 '' systemd-analyze verify --man=no --recursive-errors=no "$folder"/units/*
else
    leave_out 'systemd-analyze is missing: no unit was tried'
fi
if command -v systemd-sysusers >/dev/null; then
    expect 'the user of the rounds' 0 "*Creating user 'jofitrana'*" \
        on "$tools/../systemd/jofitrana.conf" systemd-sysusers --dry-run --root="$folder" -
else
    leave_out 'systemd-sysusers is missing: no user was tried'
fi

expect 'the schedule of the stormy week' 0 '' cmp <(python3 "$tools/checks/make_week.py") "$tools/../examples/week.schedule"

expect_end setup 0 "*Its clock showed *, and was set to this machine's time*Its clock shows *, as this machine's does*Now make *"
expect_end check 2 $'round ok attempts 1 pages 10 skipped 0 acked 36 rows 36\nJOFITRANA CRITICAL *, before the last row: *'
expect_end salvage 0 '* passed, 0 failed'
expect_end asked 0 '*[1-9]* passed, 0 failed'
expect_end written 0 '*[1-9]* passed, 0 failed'
expect_end watched 0 '*[1-9]* passed, 0 failed'
expect_end alerts 0 '*[1-9]* passed, 0 failed'
expect_end clocks 0 '*[1-9]* passed, 0 failed'
expect_end package 0 '*[1-9]* passed, 0 failed'
expect_end purge 0 '* passed, 0 failed'
grep -hE ' (is missing|is refused|or refused): ' package.output purge.output >&2
expect_end fields 0 '*[1-9]* passed, 0 failed'
expect_end stations 0 '*[1-9]* passed, 0 failed'
expect_end new_station 0 '*[1-9]* passed, 0 failed'
expect_end again 0 '*[1-9]* passed, 0 failed'
expect_end use_it 0 '*'
expect_end bad 0 '*[1-9]* passed, 0 failed'
expect_end weewx 0 '*[1-9]* passed, 0 failed'
expect_end weewx_values 0 '*[1-9]* passed, 0 failed'
if /usr/bin/python3 -c 'import jinja2, matplotlib' 2>/dev/null; then
    expect_end page 0 '*[1-9]* passed, 0 failed'
    expect_end shown 0 '*[1-9]* passed, 0 failed'
    expect_end values 0 '*[1-9]* passed, 0 failed'
    expect_end views 0 '*[1-9]* passed, 0 failed'
    expect_end year 0 '*[1-9]* passed, 0 failed'
else
    expect_end page 0 '*is missing*'
    expect_end shown 0 '*is missing*'
    expect_end values 0 '*is missing*'
    expect_end views 0 '*is missing*'
    expect_end year 0 '*is missing*'
fi
if /usr/bin/python3 -c 'import psycopg2' 2>/dev/null && compgen -G '/usr/lib/postgresql/*/bin/initdb' >/dev/null; then
    expect_end sql 0 '*[1-9]* passed, 0 failed'
else
    expect_end sql 0 '*is missing*'
fi
expect_end demo 0 $'*
\$ jofitrana console week.toml week.schedule 127.0.0.1:* 1000000 &
*
\$ jofitrana station week.toml week.archive 127.0.0.1:*
round ok attempts [1-3] pages 513 skipped 0 acked 2560 rows 2560
*
\$ jofitrana report week.archive days *
day 2024-10-11 outTemp *
day 2024-10-20 outTemp min 427 at 2024-10-20 02:50 *
*chart*'
if /usr/bin/python3 -c 'import matplotlib' 2>/dev/null; then
    expect 'the picture of the demo' 0 1 grep -ac PNG shown/jofitrana-demo.*/week.png
fi
expect 'a demo without the program' 1 'demo: the program is missing: ./nowhere' "$tools/product/demo.sh" ./nowhere
expect 'a demo of a program that makes no round' 1 '*demo: the console does not serve; *' \
    env TMPDIR="$folder/shown" "$tools/product/demo.sh" ./program

conclude
