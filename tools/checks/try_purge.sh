#!/usr/bin/env bash
# Tries what an upgrade, a removal and a purge of the package keep of what the observer has. The package, with another program in
# it, is installed in a root of a few files, for which nobody needs to be root of this machine. The last line is 'N passed,
# M failed', and the status is 1 if any failed.
#
#     tools/checks/try_purge.sh
set -u
tools=$(cd "$(dirname "$0")/.." && pwd)
# shellcheck source=tools/checks/expecting.sh
. "$tools/checks/expecting.sh"
folder=$(mktemp -d)
trap 'rm -rf "$folder"' EXIT
cd "$folder" || exit 1
root=$folder/root
wants=etc/systemd/system/timers.target.wants

if ! command -v dpkg-shlibdeps >/dev/null || ! git -C "$tools" rev-parse 2>/dev/null; then
    leave_out 'dpkg-dev or the repository of git is missing: no package was purged'
    conclude
    exit
fi
if ! unshare -r true 2>/dev/null; then
    leave_out 'unshare is missing or refused: no package was purged'
    conclude
    exit
fi

# Copies a command into the root, with the libraries that it loads.
bring() {
    local file
    file=$(command -v "$1")
    install -D "$file" "$root/bin/$1"
    ldd "$file" | grep -o '/[^ ]*' | xargs cp -L --parents -t "$root"
}

# Runs dpkg in the root.
packages() {
    unshare -r dpkg --root="$root" --force-depends --force-bad-path --force-unsafe-io --no-triggers "$@" </dev/null
}

# What the observer has in the root, with modes and sums.
data() (
    cd "$root" || exit
    find etc/jofitrana var/lib/jofitrana -printf '%p %m\n' | sort
    find etc/jofitrana var/lib/jofitrana -type f -exec sha256sum {} + | sort
)

mkdir -p "$root"/{run/systemd/system,"$wants",etc/jofitrana,var/lib/jofitrana/roof.page} \
    "$root"/var/lib/dpkg/{info,updates,triggers}
touch "$root"/var/lib/dpkg/{status,available}
for command in sh rm; do bring "$command"; done
for command in systemctl deb-systemd-invoke; do
    printf '#!/bin/sh\n' >"$root/bin/$command"
    chmod 755 "$root/bin/$command"
done
echo 'period = 5' >"$root/etc/jofitrana/roof.toml"
echo 'ADDRESS=there:1' >"$root/etc/jofitrana/roof.env"
echo 'an archive' >"$root/var/lib/jofitrana/roof.archive"
echo 'a page' >"$root/var/lib/jofitrana/roof.page/index.html"
ln -s /usr/lib/systemd/system/jofitrana@.timer "$root/$wants/jofitrana@roof.timer"
ln -s /usr/lib/systemd/system/other.timer "$root/$wants/other.timer"
data >wanted

cp -L /bin/true program
package=$("$tools/build/package.sh" --program ./program)
for step in 'an installation/Setting up/-i' 'an upgrade/Setting up/-i' 'a removal/Removing/-r' 'an installation behind it/Setting up/-i' \
    'a purge/Purging/-P'; do
    IFS=/ read -r name said option <<<"$step"
    case $option in
        -i) what=$package ;;
        *) what=jofitrana ;;
    esac
    expect "$name" 0 "*$said *jofitrana*" packages "$option" "$what"
    expect "what $name keeps" 0 "$(cat wanted)" data
done
expect 'the timers that a purge leaves enabled' 0 other.timer ls "$root/$wants"
expect 'the program behind a purge' 1 '' [ -e "$root/usr/bin/jofitrana" ]
conclude
