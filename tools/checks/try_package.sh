#!/usr/bin/env bash
# Tries what is installed and the package: modes, what is left by each way to take it away, what the units run, and how far they
# are shut in. The package is installed in a root of its own over this machine's, which sees no change. The last line is
# 'N passed, M failed', and the status is 1 if any failed. What cannot be tried here is named.
#
#     tools/checks/try_package.sh [PROGRAM]
#
# Without a program it is that of this checkout, which is built first if that is not done yet.
set -u
tools=$(cd "$(dirname "$0")/.." && pwd)

# Whether mounts of its own can be had, with a root over this machine's.
has_room() {
    # shellcheck disable=SC2016  # the inner shell expands it
    [ "$(id -u)" = 0 ] && command -v unshare >/dev/null && unshare -m sh -c 'f=$(mktemp -d) && mount -t tmpfs none "$f" && mkdir "$f/u" "$f/w" "$f/r" &&
        mount -t overlay none -o "lowerdir=/,upperdir=$f/u,workdir=$f/w" "$f/r"; s=$?; umount -R "$f"; rmdir "$f"; exit $s' 2>/dev/null
}

# In mounts of its own it can lay a root over this machine's.
if [ -z "${OWN_ROOT-}" ]; then
    has_room && OWN_ROOT=yes exec unshare -m "$0" "$@"
    OWN_ROOT=no
fi

# shellcheck source=tools/checks/served_console.sh
. "$tools/checks/served_console.sh"
prepare "${1-}"
# shellcheck source=tools/checks/expecting.sh
. "$tools/checks/expecting.sh"
export TZ=UTC

# Installs below a prefix under a mask, the first word.
installed_under() (
    umask "$1"
    "$tools/build/install.sh" install --prefix "$2" --program "$program"
)

# Prints on one line what is lacking in the second of two files, and what is there besides.
differing() {
    diff "$1" "$2" | sed -n 's/^< /lacking: /p; s/^> /besides: /p' | paste -sd'|' | sed 's/|/; /g'
}

# The names below a prefix of files that can be run.
commands_of() {
    find "$1" -type f -perm /111 -printf '%P\n' | sort
}

# The names that the commands of a prefix stand for.
wanted_commands() {
    find "$1/bin" -exec readlink -f {} + | sed -n "s|^$(readlink -f "$1")/||p" | grep -v '^bin$' | sort
}

for mask in 077 000; do
    mkdir -m 755 "prefix$mask"
    expect "what is installed under the mask $mask" 0 'station: systemd finds no unit *' installed_under "$mask" "prefix$mask"
    expect "folders that are not 755 under the mask $mask" 0 '' find "prefix$mask" -type d ! -perm 755 -printf '%m %P; '
    expect "files that are neither 644 nor 755 under the mask $mask" 0 '' \
        find "prefix$mask" -type f ! -perm 644 ! -perm 755 -printf '%m %P; '
    expect "the mode of the program under the mask $mask" 0 755 stat -c %a "prefix$mask/bin/jofitrana"
    expect "just the commands can be run under the mask $mask" 0 '' differing <(wanted_commands "prefix$mask") <(commands_of "prefix$mask")
done

# Installs a small program below a prefix on a disk that takes no longer file than 64 KiB.
installed_on_a_full_disk() (
    cp -L /bin/true small
    ulimit -f 64
    "$tools/build/install.sh" install --prefix "$1" --program ./small
)
mkdir full
expect 'what is installed on a full disk' 1 '*station: full/* could not be written: nothing is installed' \
    installed_on_a_full_disk full
expect 'what is left of it' 0 'full ' find full -printf '%p '

# In each folder there is something of another's.
find prefix077 -type d -exec sh -c 'echo mine >"$1/foreign"' sh {} \;
find prefix077 -type d -o -name foreign | sort >wanted
expect 'an uninstall beside foreign files' 0 '' "$tools/build/install.sh" uninstall --prefix prefix077
expect 'foreign files stay, and nothing else' 0 '' differing wanted <(find prefix077 | sort)
expect 'what is in them' 0 mine eval 'find prefix077 -type f -exec cat {} + | sort -u'

# The lines that shut a unit in, which have to be just these.
common='CapabilityBoundingSet=
DevicePolicy=closed
EnvironmentFile=/etc/jofitrana/%i.env
KeyringMode=private
LockPersonality=yes
NoNewPrivileges=yes
PrivateDevices=yes
PrivateIPC=yes
PrivateMounts=yes
PrivateTmp=yes
PrivateUsers=yes
ProcSubset=pid
ProtectClock=yes
ProtectControlGroups=yes
ProtectHome=yes
ProtectHostname=yes
ProtectKernelLogs=yes
ProtectKernelModules=yes
ProtectKernelTunables=yes
ProtectProc=invisible
ProtectSystem=strict
RemoveIPC=yes
RestrictNamespaces=yes
RestrictRealtime=yes
RestrictSUIDSGID=yes
SystemCallArchitectures=native
SystemCallFilter=@system-service
User=jofitrana'
linked='MemoryDenyWriteExecute=yes
RestrictAddressFamilies=AF_INET AF_INET6 AF_UNIX
SystemCallFilter=~@privileged @resources'
writing='StateDirectory=jofitrana
StateDirectoryMode=0755
UMask=0022'
declare -A shut_in=(
    [jofitrana]="$common
$linked
$writing"
    [jofitrana-stay]="$common
$linked
$writing"
    [jofitrana-check]="$common
MemoryDenyWriteExecute=yes
PrivateNetwork=yes
RestrictAddressFamilies=none
SystemCallFilter=~@privileged @resources"
    [jofitrana-clock]="$common
$linked
$writing"
    [jofitrana-page]="$common
$writing
CacheDirectory=jofitrana
PrivateNetwork=yes
RestrictAddressFamilies=none
SystemCallFilter=~@privileged"
    [jofitrana-line]="$(grep -v -E '^Private(Devices|Users)=' <<<"$common")
DeviceAllow=char-ttyACM rw
DeviceAllow=char-ttyAMA rw
DeviceAllow=char-ttyS rw
DeviceAllow=char-ttyUSB rw
MemoryDenyWriteExecute=yes
RestrictAddressFamilies=AF_INET
SupplementaryGroups=dialout
SystemCallFilter=~@privileged @resources
UMask=0077"
    [jofitrana-alert]="$writing
CapabilityBoundingSet=CAP_SETUID CAP_SETGID CAP_CHOWN CAP_DAC_OVERRIDE CAP_FOWNER
EnvironmentFile=/etc/jofitrana/%i.env
KeyringMode=private
PrivateMounts=yes
PrivateTmp=yes
ProtectControlGroups=yes
ProtectHome=read-only
ProtectSystem=full
User=jofitrana")
kinds='User|Group|DynamicUser|SupplementaryGroups|EnvironmentFile|.*Capabilit.*|Device.*|Keyring.*|Lock.*|NoNew.*|Private.*|ProcSubset'
kinds+='|Protect.*|RemoveIPC|Restrict[A-Z].*|SystemCall.*|Memory.*|State.*|Cache.*|Bind.*|Read.*|UMask'
for name in "${!shut_in[@]}"; do
    expect "the lines that shut $name in" 0 '' differing <(sort <<<"${shut_in[$name]}") \
        <(grep -E "^($kinds)=" "$tools/../systemd/$name@.service" | sort)
done

# What units start and stop, when they begin anew, and which ends are good. It has to be just this.
ties() (
    ties='On(Failure|Success|Calendar)|Wants=.*jofitrana|Unit=|Conflicts|PartOf|Restart|SuccessExit|StartLimit|WantedBy'
    cd "$tools/../systemd" && grep -oE "^($ties).*" -- *@.* | LC_ALL=C sort
)
wanted_ties='jofitrana-check@.service:OnFailure=jofitrana-alert@%i.service
jofitrana-check@.service:OnSuccess=jofitrana-alert@%i.service
jofitrana-check@.service:SuccessExitStatus=SIGTERM
jofitrana-check@.timer:OnCalendar=*:4/15
jofitrana-check@.timer:PartOf=jofitrana@%i.timer
jofitrana-clock@.service:SuccessExitStatus=1 2 SIGTERM
jofitrana-clock@.timer:OnCalendar=12:04
jofitrana-clock@.timer:PartOf=jofitrana@%i.timer
jofitrana-line@.service:Restart=always
jofitrana-line@.service:RestartSec=10s
jofitrana-line@.service:SuccessExitStatus=143
jofitrana-line@.service:WantedBy=multi-user.target
jofitrana-page@.service:SuccessExitStatus=SIGTERM
jofitrana-page@.service:WantedBy=jofitrana@%i.service
jofitrana-stay-check@.timer:OnCalendar=*:4/15
jofitrana-stay-check@.timer:PartOf=jofitrana-stay@%i.service
jofitrana-stay-check@.timer:Unit=jofitrana-check@%i.service
jofitrana-stay@.service:Conflicts=jofitrana@%i.timer
jofitrana-stay@.service:OnFailure=jofitrana-stay-alert@%i.service
jofitrana-stay@.service:Restart=always
jofitrana-stay@.service:RestartPreventExitStatus=2 10 11 16
jofitrana-stay@.service:RestartSec=60
jofitrana-stay@.service:StartLimitIntervalSec=0
jofitrana-stay@.service:SuccessExitStatus=4 6
jofitrana-stay@.service:WantedBy=multi-user.target
jofitrana-stay@.service:Wants=network-online.target jofitrana-stay-check@%i.timer
jofitrana@.service:OnFailure=jofitrana-round-alert@%i.service
jofitrana@.service:Restart=no
jofitrana@.service:SuccessExitStatus=4 6 13 SIGTERM
jofitrana@.timer:OnCalendar=*:1/5
jofitrana@.timer:WantedBy=timers.target
jofitrana@.timer:Wants=jofitrana-check@%i.timer jofitrana-clock@%i.timer'
expect 'what units start and stop' 0 '' differing <(echo "$wanted_ties") <(ties)

# The alerts that more than one unit starts: systemd hands over to none of them how a unit ended.
shared_alerts() (
    cd "$tools/../systemd" || exit
    grep -oE '^On(Failure|Success)=.*' -- *@.* | sed 's/:.*=/ /' | sort -u | cut -d' ' -f2 | sort | uniq -d
)
expect 'alerts that more than one unit starts' 0 '' shared_alerts

# The units that others start or wait for, and that are not installed.
missing_units() (
    cd "$tools/../systemd" || exit
    grep -ohE 'jofitrana[a-z-]*@%i\.[a-z]+' -- *@.* | sed 's/%i//' | sort -u |
        grep -vxFf <(sed -n 's|.* lib/systemd/system/||p' "$tools/build/installed.txt")
)
expect 'units that others name, and that are not installed' 1 '' missing_units

# Prints the exposure of a unit, and returns whether it is at most 1.1.
exposure() {
    local told status
    told=$(systemd-analyze security --offline=true --threshold=11 "$1")
    status=$?
    tail -n 1 <<<"$told"
    return "$status"
}

if command -v systemd-analyze >/dev/null; then
    mkdir units
    cp "$tools"/../systemd/*@.* units
    sed -i 's|^ExecStart=jofitrana[-a-z]* |ExecStart=/bin/true |' units/*
    for name in "${!shut_in[@]}"; do
        # A mailer has rights of its own, and a serial line has devices.
        [[ $name != jofitrana-alert && $name != jofitrana-line ]] || continue
        expect "an exposure of $name of at most 1.1" 0 '*exposure level*' \
            exposure "units/$name@.service"
    done
else
    leave_out 'systemd-analyze is missing: no exposure of a unit was tried'
fi

# What comes next takes a package, and a root to install it in.
if ! command -v dpkg-shlibdeps >/dev/null || ! git -C "$tools" rev-parse 2>/dev/null; then
    leave_out 'dpkg-dev or the repository of git is missing: no package was installed'
    conclude
    exit
fi
package=$("$tools/build/package.sh" --program "$program")
# Makes it again on a disk that takes no longer file than 64 KiB.
mkdir -p full/bin
cat >full/bin/dpkg-deb <<FULL
#!/bin/sh
ulimit -f 64
exec $(command -v dpkg-deb) "\$@"
FULL
chmod +x full/bin/dpkg-deb
packed_on_a_full_disk() (
    export PATH=$folder/full/bin:$PATH
    "$tools/build/package.sh" --program "$program" >full/said 2>&1
)
sum=$(sha256sum "$package")
expect 'a package on a full disk' 2 '' packed_on_a_full_disk
expect 'the one before' 0 "$sum" sha256sum "$package"
expect 'nothing else is left of it' 0 '' find . -name '.new-*'
expect 'who owns the files of the package, and their modes' 0 \
    '-rw-r--r-- root/root,-rwxr-xr-x root/root,drwxr-xr-x root/root,lrwxrwxrwx root/root' \
    eval "dpkg-deb -c '$package' | awk '{ print \$1, \$2 }' | sort -u | paste -sd,"
expect 'its program' 0 '-rwxr-xr-x*' eval "dpkg-deb -c '$package' | grep ' ./usr/bin/jofitrana\$'"
if [ "$OWN_ROOT" = no ]; then
    leave_out 'an overlay in mounts of its own is refused: no unit of the package was run, which takes root'
    conclude
    exit
fi

# The root: this machine's, with a database of packages, commands of systemd that note their words, and a system that runs.
root=$folder/root
mkdir "$root" over
mount -t tmpfs none over
mkdir over/upper over/work
mount -t overlay none -o "lowerdir=/,upperdir=$folder/over/upper,workdir=$folder/over/work" "$root" || lack 'there is no root'
leave_root() {
    umount -Rl "$root"
    umount -l over
    tidy
}
trap leave_root EXIT
mount --rbind /proc "$root/proc"
touch "$root/dev/null"
mount --bind /dev/null "$root/dev/null"
mkdir -p "$root"/packages/{info,updates,triggers} "$root/noting" "$root/run/systemd/system" "$root"/etc/systemd/system/{timers,multi-user}.target.wants
touch "$root"/packages/{status,available}
for name in systemctl deb-systemd-invoke; do
    printf '#!/bin/sh\necho "%s $*" >>/noted\n' "$name" >"$root/noting/$name"
    chmod 755 "$root/noting/$name"
done
cp "$package" "$root/package.deb"
wants=$root/etc/systemd/system/timers.target.wants
stays=$root/etc/systemd/system/multi-user.target.wants
rm -rf "${root:?}"/etc/jofitrana "$root"/var/{lib,cache}/jofitrana "${wants:?}"/* "${stays:?}"/*

# Runs a command in the root.
in_root() {
    chroot "$root" env PATH="/noting:/usr/local/sbin:/usr/local/bin:/usr/sbin:/usr/bin:/sbin:/bin" "$@"
}

# Runs dpkg in the root, and empties the notes before.
packages() {
    : >"$root/noted"
    in_root dpkg --admindir=/packages --force-depends --force-unsafe-io --no-triggers "$@" </dev/null
}

# What the observer has in the root, with modes, owners and sums.
data() (
    cd "$root" || exit
    find etc/jofitrana var/lib/jofitrana -printf '%p %m of %U\n' | sort
    find etc/jofitrana var/lib/jofitrana -type f -exec sha256sum {} + | sort
)

# Runs a unit of the station roof in the root, as it stands.
unit() {
    in_root "$tools/checks/run_unit.py" "/usr/lib/systemd/system/$1@.service" roof
}

expect 'the package is installed' 0 '*Setting up jofitrana *' packages -i /package.deb
expect 'a first installation starts nothing' 1 '' grep start "$root/noted"
command -v systemd-sysusers >/dev/null || in_root useradd --system --no-create-home jofitrana  # as systemd does where it is

# A station whose console keeps a record every half an hour, and has those of the last day.
hold_port
half_hours=$((($(date +%s) / 1800 - 47) * 1800))
start half "$tools/checks/fake_console.py" --byte 2D=1e --run "$(date -d "@$half_hours" '+%F %H:%M')" 48 "$port"
await half listens "$port"
expect 'a setup of it' 0 '*every 30 minutes.*Written: /etc/jofitrana/roof.toml*' in_root jofitrana-setup roof "127.0.0.1:$port"
expect 'settings that others can read' 0 $'period = 30\n*\n644 /etc/jofitrana/roof.toml' \
    in_root sh -c 'cat /etc/jofitrana/roof.toml && stat -c "%a %n" /etc/jofitrana/roof.toml'
expect 'a round by its unit' 0 'round ok attempts 1 pages * acked 48 rows 48' unit jofitrana
expect 'a next round by its unit' 0 'round ok attempts 1 pages 0 * rows 48' unit jofitrana
expect 'the settings behind its rounds' 0 $'period = 30\n*' cat "$root/etc/jofitrana/roof.toml"
expect 'whose archive it is' 0 $'755 jofitrana /var/lib/jofitrana
644 jofitrana /var/lib/jofitrana/roof.archive' in_root stat -c '%a %U %n' /var/lib/jofitrana /var/lib/jofitrana/roof.archive
expect 'the rows of the archive' 0 48 eval "in_root jofitrana report /var/lib/jofitrana/roof.archive rows 1999-12-31 2127-12-31 | wc -l"
expect 'a round beside one that holds the archive' 0 'left out by its condition' \
    flock "$root/var/lib/jofitrana/roof.archive" chroot "$root" "$tools/checks/run_unit.py" /usr/lib/systemd/system/jofitrana@.service roof
echo 'ROUNDS=1' >>"$root/etc/jofitrana/roof.env"
expect 'a stay of one round by its unit' 0 $'round ok attempts 1 pages 0 * rows 48\nstayed 1' unit jofitrana-stay
expect 'a stay beside a round that holds the archive' 7 'disk fault' \
    flock "$root/var/lib/jofitrana/roof.archive" chroot "$root" "$tools/checks/run_unit.py" /usr/lib/systemd/system/jofitrana-stay@.service roof
echo 'CHECK=--stuck 99,99' >>"$root/etc/jofitrana/roof.env" # this console's records are all alike
expect 'a check by its unit' 0 'JOFITRANA OK *' unit jofitrana-check
expect 'a look at its console by its unit' 0 $'time *\nJOFITRANA OK *' unit jofitrana-clock
expect 'whose note it is' 0 jofitrana in_root stat -c %U /var/lib/jofitrana/roof.console
sed -i 's/^period = 30/period = 15/' "$root/etc/jofitrana/roof.toml"
expect 'a look by its unit, at a console of another period' 2 '*JOFITRANA CRITICAL *, and /etc/jofitrana/roof.toml has 15: *' \
    unit jofitrana-clock
expect 'a check by its unit behind it' 2 'JOFITRANA CRITICAL *, and /etc/jofitrana/roof.toml has 15: *' unit jofitrana-check

# A mailer that keeps what it is given.
printf '#!/bin/sh\n{ id -un; echo "$@"; cat; } >>/var/lib/jofitrana/mail\n' >"$root/usr/sbin/sendmail"
chmod 755 "$root/usr/sbin/sendmail"
echo 'ALERT=sendmail observer@example.org' >>"$root/etc/jofitrana/roof.env"
expect 'an alert by its unit' 0 '' unit jofitrana-alert
expect 'its mail' 0 $'jofitrana\nobserver@example.org\nroof: JOFITRANA CRITICAL *' cat "$root/var/lib/jofitrana/mail"
expect 'an alert of the same' 0 '' unit jofitrana-alert
sed -i 's/^period = 15/period = 30/' "$root/etc/jofitrana/roof.toml"
expect 'an alert as all is well again' 0 '' unit jofitrana-alert
expect 'its mails' 0 $'*JOFITRANA CRITICAL *\njofitrana\nobserver@example.org\nroof: JOFITRANA OK *' \
    cat "$root/var/lib/jofitrana/mail"
expect 'a look at a console that does not answer' 0 $'link fault\nleft out by its condition' eval \
    "sed 's/:$port/:1/' '$root/etc/jofitrana/roof.env' >'$root/etc/jofitrana/away.env' && in_root '$tools/checks/run_unit.py' \
    /usr/lib/systemd/system/jofitrana-clock@.service away"
if in_root /usr/bin/python3 -c 'import jinja2, matplotlib' 2>/dev/null; then
    echo 'PAGE=--metric' >>"$root/etc/jofitrana/roof.env"
    # Matplotlib looks for fonts as a user first draws, and reports it where that takes long.
    expect 'a page by its unit' 0 '?(Matplotlib is building the font cache; this may take a moment.)' unit jofitrana-page
    expect 'whose page it is' 0 jofitrana in_root stat -c %U /var/lib/jofitrana/roof.page/index.html
else
    leave_out 'python3-jinja2 or python3-matplotlib is missing: no page was made by its unit'
fi

# The rows of a database of WeeWX come into an archive, are shown, and go into another database.
cat >"$root/make_weewx.py" <<'PYTHON'
import sqlite3
link = sqlite3.connect('/old.sdb')
link.execute('CREATE TABLE archive (dateTime INTEGER NOT NULL UNIQUE PRIMARY KEY, usUnits INTEGER NOT NULL, '
             '`interval` INTEGER NOT NULL, outTemp REAL, rain REAL)')
link.executemany('INSERT INTO archive VALUES (?, 1, 5, ?, ?)',
                 ((1_700_000_100 + 300 * number, 50 + number % 9, number % 2 / 100) for number in range(600)))
link.commit()
PYTHON
places='--zone Etc/GMT-1 --bucket 0.01in'
expect 'a database of WeeWX' 0 '' in_root /usr/bin/python3 /make_weewx.py
expect 'its rows' 0 'weewx: 600 rows; left out: 0 rows and 0 values' in_root sh -c "jofitrana-weewx rows /old.sdb $places >/old.rows"
expect 'the first of them' 0 'row 2023-11-14 23:15 5 outTemp=500 rain=0' head -n 1 "$root/old.rows"
expect 'their import' 0 'imported 600 passed 0 rows 600' in_root jofitrana import /old.rows /old.archive
expect 'a database of that archive' 0 'weewx: 600 rows added; left out: 0 rows' \
    in_root sh -c "jofitrana-weewx database /new.sdb --archive /old.archive $places"
expect 'its rows again' 0 'weewx: 600 rows; left out: 0 rows and 0 values' in_root sh -c "jofitrana-weewx rows /new.sdb $places >/new.rows"
expect 'both are alike' 0 '' cmp "$root/old.rows" "$root/new.rows"
if in_root /usr/bin/python3 -c 'import jinja2, matplotlib' 2>/dev/null; then
    expect 'a page of that archive' 0 '?(Matplotlib is building the font cache; this may take a moment.)' \
        in_root jofitrana-page --language de /old.archive /old.page
    expect 'its rain' 0 '*<th scope="row">2023, seit 14. November</th><td>3,00</td>*' cat "$root/old.page/index.html"
fi

# An upgrade starts no timer, and neither way to take the package away touches what the observer has.
ln -s /usr/lib/systemd/system/jofitrana@.timer "$wants/jofitrana@roof.timer"
ln -s /usr/lib/systemd/system/other.timer "$wants/other.timer"
ln -s /usr/lib/systemd/system/jofitrana-stay@.service "$stays/jofitrana-stay@barn.service"
echo mine >"$root/var/lib/jofitrana/notes"
echo mine >"$root/etc/jofitrana/other.toml"
data >wanted
expect 'an upgrade' 0 '*Setting up jofitrana *' packages -i /package.deb
anew='deb-systemd-invoke try-restart jofitrana-stay@?.service'
expect 'an upgrade has stays that run begin anew, and starts and stops nothing else' 0 "$anew" grep -E 'start|stop' "$root/noted"
expect 'an upgrade in two steps' 0 '*' packages --unpack /package.deb
expect 'its second step' 0 '*Setting up jofitrana *' packages --configure jofitrana
expect 'an upgrade in two steps starts nothing else' 0 "$anew" grep start "$root/noted"
expect 'what an upgrade keeps' 0 '' differing wanted <(data)
expect 'the package is removed' 0 '*Removing jofitrana *' packages -r jofitrana
expect 'a removal stops rounds and checks' 0 "*stop jofitrana@?.timer jofitrana-check@?.timer jofitrana-clock@?.timer jofitrana-stay-check@?.timer jofitrana@?.service jofitrana-stay@?.service *" \
    grep stop "$root/noted"
expect 'a removal has it forgotten which had failed' 0 'systemctl --system reset-failed jofitrana?' grep reset "$root/noted"
expect 'what a removal keeps' 0 '' differing wanted <(data)
expect 'a removal takes the program away' 1 '' [ -e "$root/usr/bin/jofitrana" ]
expect 'the package is installed again' 0 '*Setting up jofitrana *' packages -i /package.deb
expect 'the enabled timers and stays start again' 0 $'deb-systemd-invoke start jofitrana@roof.timer\ndeb-systemd-invoke start jofitrana-stay@barn.service' grep start "$root/noted"
expect 'an upgrade behind it' 0 '*Setting up jofitrana *' packages -i /package.deb
expect 'an upgrade behind it starts nothing else' 0 "$anew" grep start "$root/noted"
expect 'the package is purged' 0 '*/etc/jofitrana is kept*/var/lib/jofitrana is kept*' packages -P jofitrana
expect 'what a purge keeps' 0 '' differing wanted <(data)
expect 'the timers that a purge leaves enabled' 0 other.timer ls "$wants"
expect 'the stays that a purge leaves enabled' 0 '' ls "$stays"

conclude
