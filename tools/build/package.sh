#!/usr/bin/env bash
# Makes a Debian package of what `station install` copies, in the folder where it is run, and prints its name.
#
#     tools/build/package.sh [--arch arm64] [--program FILE]
#
# Its version is the latest day of a commit and the number of commits, so that each commit's is higher than those before
# it. The program is packed as it was proved and built. That for arm64 is built first if it does not stand.
set -eu -o pipefail
top=$(cd "$(dirname "$0")/../.." && pwd)
stage=$(mktemp -d)
draft=
trap 'rm -rf "$stage" ${draft:+"$draft"}' EXIT
umask 022
SOURCE_DATE_EPOCH=$(git -C "$top" log -1 --format=%ct)
export SOURCE_DATE_EPOCH
root=$stage/debian/jofitrana
documents=$root/usr/share/doc/jofitrana
overrides=$root/usr/share/lintian/overrides
pages=$root/usr/share/man/man1
entries=20 # of the changelog

for command in dpkg-deb dpkg-shlibdeps git gzip; do
    if ! command -v "$command" >/dev/null; then
        echo "package: the command $command is missing; on Debian: apt install dpkg-dev git gzip" >&2
        exit 1
    fi
done

# What git has of the last commit by a format.
commit() {
    git -C "$top" log -1 --format="$1"
}

# The version at a commit.
version_at() {
    local day
    day=$(git -C "$top" log --date=format:%Y%m%d --format=%cd "$1" | sort | tail -n 1)
    echo "0.$day.$(git -C "$top" rev-list --count "$1")"
}

# An entry for each of the last commits.
changes() {
    local hash
    for hash in $(git -C "$top" rev-list --first-parent -n "$entries" HEAD); do
        printf 'jofitrana (%s) unstable; urgency=medium\n\n' "$(version_at "$hash")"
        git -C "$top" log -1 --format='%w(78,2,4)* %s%w(0,0,0)%n%n -- %an <%ae>  %cD%n' "$hash"
    done
}

# Compresses the manual's pages, and leads links to the compressed ones.
compress_pages() {
    local page
    for page in "$pages"/*.1; do
        [ ! -L "$page" ] || ln -s "$(readlink "$page").gz" "$page.gz"
        if [ -L "$page" ]; then rm "$page"; else gzip -9n "$page"; fi
    done
}

# The libraries that the program loads, as packages. dpkg-shlibdeps knows those of this machine alone: from another one the
# program needs the C library, in the version of its latest function.
libraries() (
    cd "$stage"
    if [ "$architecture" != "$(dpkg --print-architecture)" ]; then
        if ! readelf -h debian/jofitrana/usr/bin/jofitrana | grep -q AArch64; then
            echo "package: the program is not for $architecture" >&2
            exit 1
        fi
        readelf -VW debian/jofitrana/usr/bin/jofitrana | grep -o 'GLIBC_[0-9.]*' | sort -Vu |
            sed -n '$s/GLIBC_\(.*\)/libc6 (>= \1)/p'
        return
    fi
    touch debian/control
    dpkg-shlibdeps -O debian/jofitrana/usr/bin/jofitrana | sed -n 's/^shlibs:Depends=//p'
)

if [ "$(git -C "$top" rev-parse --is-shallow-repository)" = true ]; then
    echo 'package: this clone lacks the older commits, which the version counts: git fetch --unshallow' >&2
    exit 1
fi
version=$(version_at HEAD)
architecture=$(dpkg --print-architecture)
if [ "${1-} ${2-}" = '--arch arm64' ]; then
    architecture=arm64
    shift 2
    if [ $# = 0 ]; then
        "$top/tools/build/build_arm64.py" /bin/true
        set -- --program "$top/out/arm64/station_program"
    fi
fi
mkdir -p "$root/usr" "$root/DEBIAN"
"$top/tools/build/install.sh" install --prefix "$root/usr" "$@" >/dev/null
rm "$root/usr/share/jofitrana/installed"
install -m 644 "$top/tools/build/debian/copyright" "$documents/copyright"
install -D -m 644 "$top/tools/build/debian/lintian-overrides" "$overrides/jofitrana"
install -m 755 "$top"/tools/build/debian/{preinst,postinst,prerm,postrm} "$root/DEBIAN"
changes | gzip -9n >"$documents/changelog.gz"
compress_pages
needed=$(libraries)
size=$(du -sk --apparent-size "$root" | cut -f 1)
sed -e "s/@VERSION@/$version/" -e "s/@ARCHITECTURE@/$architecture/" -e "s/@MAINTAINER@/$(commit '%an <%ae>')/" \
    -e "s/@SIZE@/$size/" -e "s/@LIBRARIES@/$needed/" "$top/tools/build/debian/control" >"$root/DEBIAN/control"
package=jofitrana_${version}_$architecture.deb
draft=$(mktemp -d "$PWD/.new-XXXXXX")
dpkg-deb --root-owner-group --build "$root" "$draft/$package" >/dev/null
mv "$draft/$package" .
echo "$package"
