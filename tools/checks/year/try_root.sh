#!/usr/bin/env bash
# Boots a Debian of its own, and tries the package there under its systemd: rounds over a serial line, timers, the page, both ways to
# WeeWX, checks, alerts, stays, a start of the machine, an upgrade, a removal and a purge. It is run by hand, by root, and takes a
# quarter of an hour.
# The last line is 'N passed, M failed', and the status is 1 if any failed.
#
#     tools/checks/year/try_root.sh PROGRAM [DEBIAN]
#
# DEBIAN is a folder with a Debian 12, which is only read. If it is not there, mmdebstrap makes it, which takes 1.5 GB of disk.
# Without that word it is made for this run alone. The system has processes, mounts, a network and a cgroup of its own: this
# machine's systemd is asked for nothing, and nothing is left.
set -u
here=$(cd "$(dirname "$0")" && pwd)
tools=$(dirname "$(dirname "$here")")
PACKAGES=systemd-sysv,dbus,procps,socat,tzdata,python3,python3-jinja2,python3-matplotlib
LONGEST_SECONDS=240
ADAPTER=/dev/serial/by-id/usb-Modelled_Adapter-if00-port0
ENV=/etc/jofitrana/roof.env
SETTINGS=/etc/jofitrana/roof.toml
ARCHIVE=/var/lib/jofitrana/roof.archive
MAIL=/var/lib/jofitrana/mail
enabled=(jofitrana-line@roof jofitrana@roof.timer jofitrana-check@roof.timer jofitrana-stay@barn jofitrana-stay-check@barn.timer)

# Lays devices, processes and a cgroup into a root, and becomes its first process. It runs in namespaces of its own.
begin_system() {
    local name
    cd "$1" || exit
    mount -t proc proc proc
    for name in proc/sys proc/sysrq-trigger; do
        [ ! -e "$name" ] || { mount --bind "$name" "$name" && mount -o remount,bind,ro "$name"; }
    done
    mount -t sysfs -o ro sysfs sys
    mount -t cgroup2 cgroup2 sys/fs/cgroup
    mount -t tmpfs -o mode=755 tmpfs dev
    mkdir dev/pts dev/shm
    mount -t devpts -o newinstance,ptmxmode=0666,mode=620,gid=5 devpts dev/pts
    mount -t tmpfs tmpfs dev/shm
    ln -s pts/ptmx dev/ptmx
    ln -s /proc/self/fd dev/fd
    while read -r name number; do
        mknod -m 666 "dev/$name" c 1 "$number"
    done <<<$'null 3\nzero 5\nfull 7\nrandom 8\nurandom 9\nconsole 3\nkmsg 3'
    mknod -m 666 dev/tty c 5 0
    mount -t tmpfs -o mode=755 tmpfs run
    mount -t tmpfs tmpfs tmp
    ip link set lo up
    mkdir -p .host && pivot_root . .host && umount -l /.host && rmdir /.host
    exec env -i container=jofitrana PATH=/usr/sbin:/usr/bin:/sbin:/bin /sbin/init </dev/null >/dev/null 2>&1
}

if [ "${1-}" = --begin-system ]; then
    begin_system "$2"
fi
if [ $# -lt 1 ]; then
    sed -n '2,13s/^# \{0,1\}//p' "$0" >&2
    exit 2
fi
if [ -z "${OWN_MOUNTS-}" ]; then
    for command in unshare nsenter ip mmdebstrap dpkg-deb pivot_root; do
        command -v "$command" >/dev/null || { echo "try_root: the command $command is missing" >&2; exit 1; }
    done
    OWN_MOUNTS=yes exec unshare --mount --propagation private "$0" "$@"
fi

# shellcheck source=tools/checks/expecting.sh
. "$tools/checks/expecting.sh"
program=$(readlink -f "$1")
folder=$(mktemp -d)
debian=$(readlink -m "${2:-$folder/debian}")
group=$(findmnt -nfo TARGET -t cgroup2)$(sed -n 's/^0:://p' /proc/self/cgroup)/jofitrana-root.$$
keeper=

# Ends the system, by the number of what keeps it.
end_system() {
    [ -z "$keeper" ] || kill -KILL "$keeper"
    wait "$keeper" 2>/dev/null
    keeper=
}

tidy() {
    end_system
    umount -Rl "$folder/root" "$folder/over" 2>/dev/null
    for _ in $(seq 50); do
        find "$group" -depth -type d -exec rmdir {} + 2>/dev/null
        [ -d "$group" ] || break
        sleep 0.1
    done
    rm -rf "$folder"
}
trap tidy EXIT

# Runs a command in the system.
inside() {
    nsenter -t "$system" -m -p -u -i -n -C -r -w env -i PATH=/usr/local/sbin:/usr/local/bin:/usr/sbin:/usr/bin:/sbin:/bin \
        HOME=/root LANG=C.UTF-8 DEBIAN_FRONTEND=noninteractive "$@"
}

# Runs a command of the shell in the system.
sh_inside() {
    inside bash -c "$1"
}

# Runs a command until it prints what a pattern wants, for a while, and judges that.
expect_soon() {
    local output end=$((SECONDS + LONGEST_SECONDS))
    while :; do
        output=$("${@:3}" 2>&1)
        # shellcheck disable=SC2053  # it is a pattern
        [[ $output == $2 ]] || [ "$SECONDS" -ge "$end" ] && break
        sleep 1
    done
    judge "$1" 0 "$2" 0 "$output"
}

# Boots the root, and waits until its systemd has started all.
boot() {
    mkdir -p "$group"
    # shellcheck disable=SC2016  # the inner shell expands it
    unshare --pid --fork --kill-child --mount --uts --ipc --net --propagation private sh -c \
        'echo 0 >"$1/cgroup.procs" && exec unshare --cgroup "$2" --begin-system "$3"' sh "$group" "$0" "$folder/root" &
    keeper=$!
    for _ in $(seq 100); do
        system=$(pgrep -P "$keeper") && [ "$(cat "/proc/$system/comm")" = systemd ] && break
        sleep 0.1
    done
    expect_soon 'a system that runs' '@(running|degraded)' inside systemctl is-system-running
}

# What systemd knows of a unit: how often it was begun anew, its last status, and its state.
state_of() {
    inside systemctl show "$1" -p NRestarts -p ExecMainStatus -p ActiveState -p SubState --value | paste -sd' '
}

# Whether units are active, on one line.
active() {
    inside systemctl is-active "$@" | paste -sd' '
}

# The units of the package that run, wait or have failed.
units_there() {
    inside systemctl list-units 'jofitrana*' --all --no-legend --plain --state=active,activating,failed
}

# The last line that a unit has written itself.
said() {
    inside journalctl -u "$1" --no-pager -o cat _SYSTEMD_UNIT="$1" | grep -v '^time ' | tail -n 1
}

# Writes a drop-in of a unit, as `systemctl edit` does.
edit() {
    inside mkdir -p "/etc/systemd/system/$1.d"
    inside tee "/etc/systemd/system/$1.d/override.conf" >/dev/null
    inside systemctl daemon-reload
}

# Makes the root: a layer over the Debian, with the package, consoles and a mailer that keeps what it is given.
make_root() {
    mkdir "$folder/root" "$folder/over"
    if [ ! -d "$debian" ]; then
        mmdebstrap --quiet --variant=minbase --include="$PACKAGES" bookworm "$debian" || exit 1
    fi
    mount -t tmpfs none "$folder/over" && mkdir "$folder/over/upper" "$folder/over/work"
    mount -t overlay none -o "lowerdir=$debian,upperdir=$folder/over/upper,workdir=$folder/over/work" "$folder/root" || exit 1
    local root=$folder/root number=0 unit
    mkdir -p "$root/opt/tools/checks/year" && cp "$tools"/checks/*.py "$root/opt/tools/checks" && cp "$here"/*.py "$root/opt/tools/checks/year"
    (cd "$folder" && "$tools/build/package.sh" --program "$program" >/dev/null) || exit 1
    # Two packages, of which the second has a higher version.
    dpkg-deb -R "$folder"/jofitrana_*.deb "$folder/package"
    for unit in first second; do
        number=$((number + 1))
        sed -i "s/^Version: [0-9.]*/&.$number/" "$folder/package/DEBIAN/control"
        dpkg-deb --root-owner-group -b "$folder/package" "$root/$unit.deb" >/dev/null
    done
    ln -sf /usr/share/zoneinfo/Europe/Berlin "$root/etc/localtime"
    echo '127.0.0.1 localhost weather' >"$root/etc/hosts"
    echo weather >"$root/etc/hostname"
    ln -sf /dev/null "$root/etc/systemd/system/console-getty.service"
    for unit in "net 127.0.0.1:4001" "serial --adapter $ADAPTER"; do
        printf '%s\n' '[Service]' "ExecStart=/usr/bin/python3 /opt/tools/checks/year/live.py --days 1 --period 1 ${unit#* }" \
            '[Install]' 'WantedBy=multi-user.target' >"$root/etc/systemd/system/console-${unit%% *}.service"
    done
    # shellcheck disable=SC2016  # the mailer expands it
    printf '#!/bin/sh\n{ id -un; echo "$@"; cat; } >>%s\n' "$MAIL" >"$root/usr/sbin/sendmail"
    chmod 755 "$root/usr/sbin/sendmail"
}

# Installs the package, and sets a station up at a serial adapter.
try_line() {
    expect 'the consoles' 0 '*' inside systemctl enable --now console-net console-serial
    expect_soon 'an adapter' '*/pts/*' inside readlink -f "$ADAPTER"
    expect 'the package is installed' 0 '*Setting up jofitrana *' \
        inside apt-get install -y --no-install-recommends /first.deb python3-jinja2 python3-matplotlib socat
    expect 'a setup over an adapter' 0 '*Written: /etc/jofitrana/roof.env*Its line is served from now on, by jofitrana-line@roof*' \
        inside jofitrana-setup roof "$ADAPTER"
    expect 'its line' 0 'active' active jofitrana-line@roof
    expect 'a second setup' 0 '*Kept as it is: /etc/jofitrana/roof.env*' inside jofitrana-setup roof "$ADAPTER"
    expect 'a round over it' 0 '' inside systemctl start jofitrana@roof
    expect 'what it says' 0 'round ok attempts 1 pages 28[89] skipped 0 acked 14?? rows 14??' said jofitrana@roof.service
    expect 'whose archive it is' 0 'jofitrana 644' inside stat -c '%U %a' "$ARCHIVE"
    sh_inside 'systemctl start --no-block jofitrana@roof; sleep 1; systemctl stop jofitrana@roof'
    expect 'a round that was stopped has not failed' 0 '* inactive dead' state_of jofitrana@roof.service
    inside systemctl kill -s KILL jofitrana-line@roof
    expect_soon 'a line that was killed' '1 0 active running' state_of jofitrana-line@roof
    inside systemctl stop jofitrana-line@roof
    expect 'a line that was stopped has not failed' 0 '* inactive dead' state_of jofitrana-line@roof
    expect 'a round without the line has not failed' 0 '' inside systemctl start jofitrana@roof
    expect 'what it says without the line' 0 'link fault' said jofitrana@roof.service
    inside systemctl start jofitrana-line@roof
}

# The timer makes rounds by itself, each of which makes the page, and begins and ends the checks.
try_timer() {
    edit jofitrana@roof.timer <<<$'[Timer]\nOnCalendar=\nOnCalendar=*:*:0/20\nRandomizedDelaySec=0\nAccuracySec=1s'
    expect 'the page is enabled' 0 '*' inside systemctl enable jofitrana-page@roof.service
    expect 'the timer' 0 '*' inside systemctl enable --now jofitrana@roof.timer
    expect 'its checks' 0 'active active active' active jofitrana@roof.timer jofitrana-check@roof.timer jofitrana-clock@roof.timer
    expect_soon 'two rounds of the timer' '*rows 14*rows 14*rows 14*' \
        inside journalctl -u jofitrana@roof --no-pager -o cat --grep 'round ok'
    expect_soon 'the page of a round' '*"station": "roof"*' inside cat /var/lib/jofitrana/roof.page/last.json
    expect 'the end of the timer' 0 '' inside systemctl stop jofitrana@roof.timer
    expect 'the end of its checks' 0 'inactive inactive' active jofitrana-check@roof.timer jofitrana-clock@roof.timer
    expect_soon 'no round goes on' 'inactive' active jofitrana@roof.service
}

# The station's rows go into a database of WeeWX, come back and are imported, and those of a second database are the same.
try_weewx() {
    local rows='rows; left out: 0 rows and 0 values'
    expect 'a database of WeeWX' 0 '*weewx: 14?? rows added; left out: 0 rows' inside jofitrana-weewx database --station roof /tmp/first.sdb
    expect 'its rows' 0 "weewx: 14?? $rows" sh_inside 'jofitrana-weewx rows /tmp/first.sdb --station roof >/tmp/first.rows'
    expect 'their import' 0 'imported 14?? passed 0 rows 14??' inside jofitrana import /tmp/first.rows /tmp/second.archive
    expect 'a database of that archive' 0 'weewx: 14?? rows added; left out: 0 rows' \
        inside jofitrana-weewx database --station roof --archive /tmp/second.archive /tmp/second.sdb
    expect 'its rows again' 0 "weewx: 14?? $rows" sh_inside 'jofitrana-weewx rows /tmp/second.sdb --station roof >/tmp/second.rows'
    expect 'both are alike' 0 '' inside cmp /tmp/first.rows /tmp/second.rows
    expect 'a second run adds nothing' 0 '*weewx: 0 rows added; left out: 0 rows' inside jofitrana-weewx database --station roof /tmp/first.sdb
}

# The lines of NETWORK that put an archive aside, from one of them to the one before another, as root and for all years.
lines_on_archives() {
    sed -n '/^### Put an archive aside/,/^## /s/^    //p' "$(dirname "$tools")/docs/NETWORK.md" |
        sed -n "/$1/,/$2/{/$2/!p}" | sed 's/sudo //; s/ 2024-01-01 2025-12-31/ 2024-01-01 2099-12-31/'
}

# An archive is put aside. A round makes a new one, and the page and an export have the rows of both.
try_aside() {
    expect 'an archive is put aside' 0 'copied 14??' sh_inside "set -e; $(lines_on_archives 'systemctl stop' 'systemctl start')"
    expect 'the round behind it' 0 '' inside systemctl start jofitrana@roof
    expect 'the archive that it makes' 0 'jofitrana 644' inside stat -c '%U %a' "$ARCHIVE"
    expect 'the page of both' 0 '*' sh_inside "$(lines_on_archives '^echo' '^{')"
    expect 'that page' 0 '' inside systemctl start jofitrana-page@roof
    expect 'an export of both' 0 '' sh_inside "cd /tmp; $(lines_on_archives '^{' '^$')"
    expect 'its rows' 0 '14??' sh_inside 'wc -l </tmp/roof.csv'
    sh_inside "sed -i '/^PAGE=/d' $ENV"
}

# The page of a station: by its unit in its own folder, and by its command in another one and in German.
try_page() {
    # A round may have begun the page just now: the first start waits for that one.
    expect 'a page by its unit' 0 '' sh_inside 'systemctl start jofitrana-page@roof && rm -r /var/lib/jofitrana/roof.page &&
        systemctl start jofitrana-page@roof'
    expect 'whose page it is' 0 'jofitrana' inside stat -c %U /var/lib/jofitrana/roof.page/index.html
    expect 'a page in another folder' 0 '?(Matplotlib is building the font cache; this may take a moment.)' \
        inside jofitrana-page --station roof --language de /tmp/roof
    expect 'its words' 0 '*<html lang="de">*<p>Letzte Messung: *' inside cat /tmp/roof/index.html
    expect 'a folder of others' 1 'page: /tmp/index.html is there, and was not made by this tool: *' \
        sh_inside 'echo mine >/tmp/index.html; jofitrana-page --station roof /tmp'
}

# A check, and what the observer is told of a failed round, a line that is out, and a mailer that fails.
try_alerts() {
    expect 'a check' 0 '' inside systemctl start jofitrana-check@roof
    expect 'its line' 0 'JOFITRANA OK - last row *' said jofitrana-check@roof.service
    expect 'a look at the console' 0 '' inside systemctl start jofitrana-clock@roof
    expect 'its note' 0 '*"period": 1}' inside cat /var/lib/jofitrana/roof.console
    sh_inside "echo 'ALERT=\"sendmail observer@example.org\"' >>$ENV; cp $SETTINGS /root; echo 'junk = 1' >>$SETTINGS"
    expect 'a round with refused settings' 1 '*' inside systemctl start jofitrana@roof
    expect_soon 'the observer is told at once' \
        $'jofitrana\nobserver@example.org\nroof: JOFITRANA CRITICAL - *a round failed: exit-code 2, see *' inside cat "$MAIL"
    sh_inside "cp /root/roof.toml $SETTINGS; rm $MAIL"
    expect_soon 'and once a row has come' '*roof: JOFITRANA OK - *' \
        sh_inside "systemctl start jofitrana@roof jofitrana-check@roof; sleep 2; cat $MAIL"
    sh_inside "rm $MAIL; echo 'CHECK=\"-w 1,99\"' >>$ENV; sed -i 's/^ALERT=.*/ALERT=false/' $ENV"
    inside systemctl stop jofitrana-line@roof
    expect_soon 'a mailer that fails' 'failed' \
        sh_inside 'systemctl start jofitrana-check@roof 2>/dev/null; sleep 3; systemctl is-active jofitrana-alert@roof'
    inside systemctl start jofitrana-clock@roof
    expect_soon 'a look without the line is left out' '*Skipped due to*exec-condition*' \
        inside journalctl -u jofitrana-clock@roof --no-pager -n 3
    sh_inside "sed -i 's/^ALERT=.*/ALERT=sendmail/' $ENV"
    expect_soon 'a mailer that is back' '*roof: JOFITRANA WARNING - last row *' \
        sh_inside "systemctl start jofitrana-check@roof; sleep 2; cat $MAIL"
    sh_inside "rm $MAIL; sed -i '/^CHECK=/d' $ENV; systemctl start jofitrana-line@roof jofitrana@roof jofitrana-check@roof"
    expect_soon 'the end of it' '*roof: JOFITRANA OK - *' inside cat "$MAIL"
}

# A stay takes the timer's place, is begun anew if that helps, and is told of if it does not.
try_stay() {
    sh_inside "echo WAITS=5 >>$ENV"
    edit jofitrana-stay@.service <<<$'[Service]\nRestartSec=1'
    inside systemctl start jofitrana@roof.timer
    expect 'a stay' 0 '' inside systemctl start jofitrana-stay@roof
    expect 'it stops the timer and has checks' 0 'active active inactive inactive inactive' active jofitrana-stay@roof \
        jofitrana-stay-check@roof.timer jofitrana@roof.timer jofitrana-check@roof.timer jofitrana-clock@roof.timer
    expect_soon 'its rounds' '*round ok*round ok*' inside journalctl -u jofitrana-stay@roof --no-pager -o cat
    inside systemctl start jofitrana@roof
    expect_soon 'a round beside it is left out' '*exec-condition*' inside journalctl -u jofitrana@roof --no-pager -n 3
    try_page_of_a_stay
    inside systemctl kill -s KILL jofitrana-stay@roof
    expect_soon 'a stay that was killed' '1 0 active running' state_of jofitrana-stay@roof
    inside systemctl stop jofitrana-line@roof
    expect_soon 'a stay without its line' '* 6 activating auto-restart' state_of jofitrana-stay@roof
    inside systemctl start jofitrana-line@roof
    expect_soon 'a stay whose line is back' '* 0 active running' state_of jofitrana-stay@roof
    inside systemctl stop jofitrana-stay@roof
    expect 'a stay that was stopped has not failed' 0 '* inactive dead' state_of jofitrana-stay@roof
    expect 'its checks' 0 'inactive' active jofitrana-stay-check@roof.timer
    expect 'its archive' 0 '' sh_inside "jofitrana report $ARCHIVE days 1999-12-31 2127-12-31 >/dev/null"
    try_faults_of_stays
    inside systemctl start jofitrana-stay@roof
    inside systemctl start jofitrana@roof.timer
    expect 'the timer stops a stay' 0 'active active inactive inactive' active jofitrana@roof.timer jofitrana-check@roof.timer \
        jofitrana-stay@roof jofitrana-stay-check@roof.timer
}

# Beside a stay the page has a timer of its own, as the manual has it, here with a quicker one.
try_page_of_a_stay() {
    sed -n '/^\[Timer\]/,/^WantedBy/p' "$tools/../docs/USING.md" | sed 's|^OnCalendar=.*|OnCalendar=*:*:0/10|' |
        inside tee /etc/systemd/system/jofitrana-page@roof.timer >/dev/null
    sh_inside 'systemctl daemon-reload; systemctl stop jofitrana-page@roof.service; touch /root/mark'
    expect 'a timer of the page' 0 '*' inside systemctl enable --now jofitrana-page@roof.timer
    expect_soon 'a page beside a stay' '*/index.html' inside find /var/lib/jofitrana/roof.page/index.html -newer /root/mark
    expect 'its end' 0 '*' inside systemctl disable --now jofitrana-page@roof.timer
}

# Spoils something, and holds how a stay ends, and that it is not begun anew and told of.
try_fault() {
    sh_inside "rm -f $MAIL /var/lib/jofitrana/roof.alert; cp -p $ARCHIVE /root; $3; systemctl start jofitrana-stay@roof"
    expect_soon "a stay with $1" "0 $2 failed failed" state_of jofitrana-stay@roof
    expect_soon "what is told of $1" "*a stay failed: exit-code $2, see *" inside cat "$MAIL"
    expect "the checks beside $1 go on" 0 'active' active jofitrana-stay-check@roof.timer
    sh_inside "systemctl stop jofitrana-stay@roof; systemctl reset-failed"
    sh_inside "cp /root/roof.toml $SETTINGS; cp -p /root/roof.archive $ARCHIVE"
}

# The faults that want a person, and one of the disk, after which a stay is begun anew.
try_faults_of_stays() {
    try_fault 'refused settings' 2 "echo 'junk = 1' >>$SETTINGS"
    try_fault 'a full archive' 10 "sed -i '1a rows = 1' $SETTINGS"
    try_fault 'a damaged archive' 11 "printf X | dd of=$ARCHIVE bs=1 seek=200 conv=notrunc status=none"
    try_fault 'an archive of the first version' 16 "printf 1 | dd of=$ARCHIVE bs=1 seek=7 conv=notrunc status=none"
    sh_inside "chown root: $ARCHIVE; systemctl start jofitrana-stay@roof"
    expect_soon 'a stay with an archive of root' '[1-9]* 7 activating auto-restart' state_of jofitrana-stay@roof
    sh_inside "systemctl stop jofitrana-stay@roof; chown jofitrana: $ARCHIVE"
}

# A modelled console for callers one after another.
try_again() {
    expect 'a console for all' 0 '*' inside systemd-run --unit=again jofitrana-again console \
        /usr/share/doc/jofitrana/examples/week.toml /usr/share/doc/jofitrana/examples/week.schedule 127.0.0.1:4002
    expect_soon 'its first caller' 'kind 16' inside jofitrana task 127.0.0.1:4002 kind
    expect 'its second caller' 0 'time 2024-01-01 00:00:00' inside jofitrana task 127.0.0.1:4002 time
    expect 'its third caller' 0 'written 1' inside jofitrana task 127.0.0.1:4002 eeprom write 2B 10
    expect 'a setup of it' 1 '*A console answers at 127.0.0.1:4002, of kind 16.*' \
        inside jofitrana-setup --settings /tmp --archives /tmp week 127.0.0.1:4002
    inside systemctl stop again
    expect 'its end' 0 '* inactive dead' state_of again
}

# After a start of the machine line, timer and stays are there; an upgrade leaves timers alone and has stays begin anew.
try_upgrade() {
    inside systemctl stop jofitrana@roof.timer
    expect 'a second station' 0 '*Now make the first round*' inside jofitrana-setup barn 127.0.0.1:4001
    expect 'its stay' 0 '*' inside systemctl enable --now jofitrana-stay@barn
    end_system
    boot
    expect_soon 'what is there after a start of the machine' 'active active active active active' active "${enabled[@]}"
    inside systemctl stop jofitrana@roof.timer
    local before
    before=$(inside systemctl show -p MainPID jofitrana-stay@barn)
    expect 'an upgrade' 0 '*Setting up jofitrana *' inside apt-get install -y --no-install-recommends /second.deb
    expect 'a timer that was stopped stays so' 0 'active inactive active' \
        active jofitrana-line@roof jofitrana@roof.timer jofitrana-stay@barn
    expect 'a stay begins anew' 1 '' sh_inside "systemctl show -p MainPID jofitrana-stay@barn | grep -x '$before'"
    inside systemctl start jofitrana@roof.timer
    expect 'an upgrade beside a timer' 0 '*' inside apt-get install -y --reinstall --no-install-recommends /second.deb
    expect 'the timer goes on' 0 'active' active jofitrana@roof.timer
}

# What a removal and a purge leave.
try_removal() {
    local data='cd / && find etc/jofitrana var/lib/jofitrana -type f ! -name "*.alert" -exec sha256sum {} + | sort'
    expect 'a removal' 0 '*Removing jofitrana *' inside apt-get remove -y jofitrana
    local kept
    kept=$(sh_inside "$data")
    expect 'what is left of units' 0 '' units_there
    expect 'the package once more' 0 '*Setting up jofitrana *' inside apt-get install -y --no-install-recommends /second.deb
    expect_soon 'what was enabled is there again' 'active active active active active' active "${enabled[@]}"
    expect 'a purge' 0 '*/etc/jofitrana is kept*/var/lib/jofitrana is kept*' inside apt-get purge -y jofitrana
    expect 'what a purge leaves enabled' 0 '' inside find /etc/systemd/system -name 'jofitrana*' -type l
    expect 'what is left of units behind it' 0 '' units_there
    expect 'what a purge keeps of a station' 0 "$(grep 'roof.toml' <<<"$kept")" sh_inside "$data | grep 'roof.toml'"
    expect 'the archives' 0 '*/barn.archive*/roof.archive' inside sh -c 'ls /var/lib/jofitrana/*.archive'
}

make_root
boot
try_line
try_timer
try_page
try_aside
try_weewx
try_alerts
try_stay
try_again
try_upgrade
try_removal
conclude
