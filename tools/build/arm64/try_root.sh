#!/usr/bin/env bash
# Installs the package for arm64 in a Debian 12 for arm64, and runs there under an emulator what it installs. What a command
# prints or writes has to be what it is with the program for x86-64 on this machine. The last line is 'N passed, M failed', and
# the status is 1 if any failed. It is run by hand, by root.
#
#     tools/build/arm64/try_root.sh [--keep FOLDER] [PACKAGE]
#
# Without a package it is made of this checkout. The Debian is fetched, and taken away afterwards. With --keep it is fetched into
# that folder if it is not there, and stays for the next run: what is tried is written over it in memory alone. The machine is
# left as it was.
set -u
tools=$(cd "$(dirname "$0")/../.." && pwd)
top=$(dirname "$tools")
PACKAGES=python3,python3-jinja2,python3-matplotlib,python3-psycopg2,tzdata,systemd,man-db
RELEASE=bookworm
KINDS=/proc/sys/fs/binfmt_misc
EMULATED=qemu-aarch64
NEEDED='mmdebstrap arch-test qemu-user-static binfmt-support dpkg-dev'
SERVER_USERS=(postgres nobody) # of these one runs the server of PostgreSQL, which does not run as root
WEEK=(2024-10-11 2024-10-20)
RECORDS=48
EARLIER=0.1 # a version
export TZ=UTC

if [ -z "${OWN_MOUNTS-}" ]; then
    OWN_MOUNTS=yes exec unshare -m "$0" "$@"
fi
# shellcheck source=tools/checks/served_console.sh
. "$tools/checks/served_console.sh"
# shellcheck source=tools/checks/expecting.sh
. "$tools/checks/expecting.sh"

[ "$(id -u)" = 0 ] || lack 'it takes root'
for command in mmdebstrap arch-test update-binfmts qemu-aarch64-static dpkg-shlibdeps; do
    command -v "$command" >/dev/null || lack "the command $command is missing; on Debian: apt install $NEEDED"
done
debian=
if [ "${1-}" = --keep ]; then
    debian=$(realpath "$2")
    shift 2
fi
asked=${1:+$(readlink -f "$1")}
"$tools/build/build_arm64.py" /bin/true || lack 'the program for arm64 does not stand'
prepare "$top/crates/station_program/out/station_program"
root=$folder/root
enabled=

# Ends what was started, and leaves neither mounts nor the emulator's entry behind.
leave_root() {
    umount -Rl "$root" 2>/dev/null
    umount -l "$folder/over" 2>/dev/null
    [ -z "$enabled" ] || update-binfmts --disable "$EMULATED"
    [ ! -e "$folder/data/postmaster.pid" ] || serve_database stop
    tidy
}
trap leave_root EXIT

# Has the kernel start programs for arm64 by the emulator.
if [ ! -e "$KINDS/register" ]; then
    mount -t binfmt_misc binfmt_misc "$KINDS" || lack 'binfmt_misc is refused'
fi
if [ ! -e "$KINDS/$EMULATED" ]; then
    update-binfmts --enable "$EMULATED" || lack 'no emulator can be entered'
    enabled=yes
fi

# The Debian, and over it what is tried, in memory.
if [ ! -e "${debian:=$folder/debian}/etc/debian_version" ]; then
    mmdebstrap --arch=arm64 --variant=minbase --aptopt='APT::Install-Recommends "false"' --include="$PACKAGES" \
        "$RELEASE" "$debian" >debian.said 2>&1 ||
        lack "there is no Debian: $(tail -n 1 debian.said)"
fi
mkdir over "$root"
mount -t tmpfs none over
mkdir over/upper over/work
mount -t overlay none -o "lowerdir=$debian,upperdir=$folder/over/upper,workdir=$folder/over/work" "$root" || lack 'there is no root'
mount -t proc proc "$root/proc"
mount --rbind /dev "$root/dev"
[ -n "$asked" ] || asked=$("$tools/build/package.sh" --arch arm64)
cp "$asked" "$root/package.deb"
cp "$tools/checks/run_unit.py" "$root/run_unit.py"
mkdir "$root/tried"

# Runs a command in the root.
in_root() {
    chroot "$root" env -i PATH=/usr/local/sbin:/usr/local/bin:/usr/sbin:/usr/bin:/sbin:/bin HOME=/root LANG=C.UTF-8 TZ=UTC "$@"
}

# Runs a line of the shell there, in the folder of what is tried.
there() {
    in_root sh -c "cd /tried && $1"
}

# Runs a unit of the station roof there, as it stands.
unit() {
    in_root /run_unit.py "/usr/lib/systemd/system/$1@.service" roof
}

# Packs the package anew as one of an earlier version.
pack_earlier() {
    dpkg-deb -R "$root/package.deb" earlier
    sed -i "s/^Version: .*/Version: $EARLIER/" earlier/DEBIAN/control
    dpkg-deb --root-owner-group --build earlier "$root/earlier.deb" >/dev/null
}

# What the observer has there, with modes, owners and sums.
data() (
    cd "$root" || exit
    find etc/jofitrana var/lib/jofitrana -printf '%p %m of %U\n' | sort
    find etc/jofitrana var/lib/jofitrana -type f -exec sha256sum {} + | sort
)

# Starts or stops a server of PostgreSQL in the folder `data`, which listens at a socket in the folder `socket`.
serve_database() (
    commands=$(compgen -G '/usr/lib/postgresql/*/bin' | tail -n 1)
    for user in "${SERVER_USERS[@]}"; do ! getent passwd "$user" >/dev/null || break; done
    as_user() { setpriv --reuid "$user" --regid "$(id -g "$user")" --clear-groups "$commands/$1" -D "$folder/data" "${@:2}"; }
    if [ "$1" = stop ]; then
        as_user pg_ctl -m immediate stop >/dev/null
        return
    fi
    chmod 755 "$folder"
    install -d -o "$user" data socket
    as_user initdb -A trust -U trial -E UTF8 --locale=C -N >/dev/null &&
        as_user pg_ctl -w -l "$folder/data/log" -o "-k $folder/socket -c listen_addresses='' -c fsync=off" start >/dev/null
)

expect 'the machine' 0 $'aarch64\narm64' in_root sh -c 'uname -m; dpkg --print-architecture'
pack_earlier
expect 'the package is installed' 0 '*Setting up jofitrana *' in_root dpkg -i /earlier.deb
expect 'nothing is lacking' 0 '' in_root sh -c 'dpkg --audit && apt-get check >/dev/null'
expect 'the user of the rounds' 0 'jofitrana:*' in_root getent passwd jofitrana
expect 'what the program is' 0 AArch64 eval "readelf -h '$root/usr/bin/jofitrana' | sed -n 's/.*Machine: *//p'"

# The program, and the demo with its picture.
examples=/usr/share/doc/jofitrana/examples
expect 'the stormy week' 0 '' there "jofitrana replay $examples/week.toml $examples/week.schedule >week.said"
expect 'what it printed' 0 '' cmp "$root/tried/week.said" "$top/examples/week.replay"
expect 'the demo' 0 $'*\nround ok attempts 1 pages 513 skipped 0 acked 2560 rows 2560\n*The picture is /tmp/*' \
    in_root jofitrana-demo
there 'mv /tmp/jofitrana-demo.*/* .'
expect 'the picture of the demo' 0 1 grep -ac PNG "$root/tried/week.png"

# Prints what a command printed here or there, but for its folder and the age of the last row.
evened() {
    sed -e "s|$folder/here|/tried|g" -e 's/[0-9]* minutes ago/some minutes ago/; s/age=[0-9]*s/age=some/' "$1"
}

# Runs a command there and here, and compares what both print, and how they end.
same() {
    local name=$1 there=$2 here=$3
    there "$there" >there.said 2>&1
    echo "status $?" >>there.said
    (cd "$folder/here" && eval "$here") >here.said 2>&1
    echo "status $?" >>here.said
    expect "$name, as here" 0 '' diff <(evened here.said) <(evened there.said)
    expect "$name: its status" 0 'status [0-3]' tail -n 1 there.said
}
mkdir here
cp "$root/tried/week.archive" here
# shellcheck disable=SC2034  # the lines that are evaluated take it
days="${WEEK[*]}"
for what in "report week.archive rows $days" "report week.archive days $days" 'climate week.archive 2024' \
    'copy week.archive copy.archive'; do
    same "jofitrana ${what%% *}" "jofitrana $what" "$program $what"
done
expect 'a copy' 0 '' cmp "$root/tried/copy.archive" here/copy.archive
same 'the rows kept' "jofitrana report week.archive rows $days >week.rows" "$program report week.archive rows $days >week.rows"
same 'an import' 'jofitrana import week.rows imported.archive' "$program import week.rows imported.archive"
expect 'what an import makes' 0 '' cmp "$root/tried/imported.archive" here/imported.archive

# The tools, over the rows of the week.
settings='--zone Europe/Berlin --bucket 0.2mm'
same 'an export' "jofitrana-export $settings week.csv <week.rows" "$tools/product/export.py $settings week.csv <week.rows"
expect 'what an export writes' 0 '' cmp "$root/tried/week.csv" here/week.csv
expect 'its configuration' 0 '' diff <(evened here/week.conf) "$root/tried/week.conf"
same 'rows for WeeWX' "jofitrana-weewx database $settings --archive week.archive week.sdb" \
    "$tools/product/weewx.py database $settings --archive week.archive --program $program week.sdb"
same 'rows of WeeWX' "jofitrana-weewx rows $settings week.sdb" "$tools/product/weewx.py rows $settings week.sdb"
expect 'the first of them' 0 'row 2024-10-*' head -n 1 there.said
expect 'a chart' 0 '' there 'jofitrana-chart --metric week.svg <week.rows'
expect 'its text' 0 '*' grep -c '<svg' "$root/tried/week.svg"
page='--metric --name Roof week.archive'
expect 'a page' 0 '?(Matplotlib is building the font cache; this may take a moment.)' there "jofitrana-page $page page"
eval "(cd here && '$tools/product/page.py' --program '$program' $page page)"
for file in last.json climate-2024.html; do
    expect "$file of the page" 0 '' cmp "$root/tried/page/$file" "here/page/$file"
done
expect 'the files of the page' 0 '' diff <(ls "$root/tried/page") <(ls here/page)
same 'a check' 'jofitrana-check week.archive' "$tools/product/check.py -p $program week.archive"
head -c 100000 here/week.archive >here/cut.archive
cp here/cut.archive "$root/tried"
same 'a salvage' 'jofitrana-salvage cut.archive saved.archive' "$tools/product/salvage.py --program $program cut.archive saved.archive"
expect 'what a salvage makes' 0 '' cmp "$root/tried/saved.archive" here/saved.archive
expect 'a database that is not there' 1 'sql: *' there 'jofitrana-sql --station roof --zone Europe/Berlin host=/nowhere <week.rows'
if compgen -G '/usr/lib/postgresql/*/bin' >/dev/null && serve_database start; then
    mkdir "$root/database"
    mount --bind socket "$root/database"
    sql="jofitrana-sql --station roof $settings 'host=/database dbname=postgres user=trial' <week.rows"
    expect 'rows into PostgreSQL' 0 '*2560*' there "$sql"
    expect 'the same rows once more' 0 '*2560*' there "$sql"
else
    leave_out 'PostgreSQL is missing: no rows were written into a database'
fi

# Modelled consoles there, for a caller there.
hold_port
start again chroot "$root" env -i PATH=/usr/bin:/bin LANG=C.UTF-8 \
    sh -c "cd /tried && exec jofitrana-again console week.toml week.schedule 127.0.0.1:$port"
await again listens "$port"
expect 'live packets' 0 'packets taken [1-9]*' there "jofitrana-packets 127.0.0.1:$port 8 live.packets"
cp "$root"/tried/{live.packets,week.toml} here
same 'rows of live packets' 'jofitrana soft week.toml live.packets' "$program soft week.toml live.packets"

# A station by its units. Its console is that of this machine.
hold_port
first=$((($(date +%s) / 300 - RECORDS + 1) * 300))
start console "$tools/checks/fake_console.py" --run "$(date -d "@$first" '+%F %H:%M')" "$RECORDS" "$port"
await console listens "$port"
expect 'a setup' 0 '*every 5 minutes.*Written: /etc/jofitrana/roof.toml*' \
    in_root jofitrana-setup --title Roof --bucket 0.2mm roof "127.0.0.1:$port"
expect 'a round by its unit' 0 "round ok attempts 1 pages * acked $RECORDS rows $RECORDS" unit jofitrana
expect 'a next round by its unit' 0 "round ok attempts 1 pages 0 * rows $RECORDS" unit jofitrana
expect 'whose archive it is' 0 '644 jofitrana' in_root stat -c '%a %U' /var/lib/jofitrana/roof.archive
echo 'ROUNDS=1' >>"$root/etc/jofitrana/roof.env"
expect 'a stay by its unit' 0 $'round ok attempts 1 pages 0 *\nstayed 1' unit jofitrana-stay
echo 'CHECK=--stuck 99,99' >>"$root/etc/jofitrana/roof.env" # its records are all alike
expect 'a check by its unit' 0 'JOFITRANA OK *' unit jofitrana-check
expect 'a look at its console by its unit' 0 $'time *\nJOFITRANA OK *' unit jofitrana-clock
echo 'ALERT=cat >/var/lib/jofitrana/alert' >>"$root/etc/jofitrana/roof.env"
expect 'an alert by its unit, of nothing' 0 '' unit jofitrana-alert
sed -i 's/^CHECK=.*/CHECK=--stuck 1,1/' "$root/etc/jofitrana/roof.env"
expect 'an alert by its unit' 0 '' unit jofitrana-alert
expect 'its line' 0 'roof: JOFITRANA CRITICAL *' cat "$root/var/lib/jofitrana/alert"
expect 'a page by its unit' 0 '?(Matplotlib is building the font cache; this may take a moment.)' unit jofitrana-page
expect 'whose page it is' 0 jofitrana in_root stat -c %U /var/lib/jofitrana/roof.page/index.html

# The manual and the units.
expect 'the manual' 0 'JOFITRANA(1)*' in_root sh -c 'MANPAGER=cat MANWIDTH=80 man jofitrana | head -n 1'
for name in "$root"/usr/bin/jofitrana*; do
    expect "a page of the manual for ${name##*/}" 0 '/usr/share/man/man1/jofitrana*.1.gz' in_root man -w "${name##*/}"
done
expect 'the units' 0 '' in_root sh -c "cd /usr/lib/systemd/system && systemd-analyze verify --man=no \
    \$(ls | sed -n 's/^\\(jofitrana.*\\)@\\./\\1@roof./p')"

# Prints what is lacking of the observer's things, and what there is besides.
changed() {
    diff kept <(data)
}
data >kept
expect 'an upgrade' 0 "*Unpacking jofitrana (0.*) over ($EARLIER) *Setting up jofitrana *" in_root dpkg -i /package.deb
expect 'what an upgrade changes' 0 '' changed
expect 'a removal' 0 '*Removing jofitrana *' in_root dpkg -r jofitrana
expect 'what a removal changes' 0 '' changed
expect 'what a removal leaves' 0 '' eval "ls -d '$root'/usr/bin/jofitrana* '$root/usr/share/jofitrana' 2>/dev/null || :"
expect 'a new installation' 0 '*Setting up jofitrana *' in_root dpkg -i /package.deb
expect 'a round behind it' 0 "round ok attempts 1 pages 0 * rows $RECORDS" unit jofitrana
expect 'a purge' 0 '*/etc/jofitrana is kept*/var/lib/jofitrana is kept*' in_root dpkg -P jofitrana
expect 'what a purge changes' 0 '' changed
expect 'what a purge leaves' 0 '' eval "ls -d '$root'/usr/bin/jofitrana* '$root'/usr/share/{,doc/}jofitrana 2>/dev/null || :"

conclude
