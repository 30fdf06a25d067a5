#!/bin/sh
# deb.sh VERSION: installs the package that `make deb` made in a fresh system without toolchain, runs the pages that it
# brings, and removes it, after which no file is left; and makes it again, which has to give the same bytes. The fresh
# system is of this one's release and comes from debootstrap, by root; it is kept in ROOT where that is given, and used
# again. Without debootstrap the package is unpacked into an empty folder, and its pages run with the system's programs
# alone on the path besides. Prints what differs.
set -eu
version=$1
deb=helgrothy_${version}_amd64.deb
empty=$(mktemp -d)
trap 'rm -rf "$empty"' EXIT
trap 'exit 2' HUP INT TERM
fail() { echo "$*"; exit 1; }

if command -v lintian >/dev/null; then
    lintian --allow-root --fail-on error --suppress-tags copyright-without-copyright-notice "dist/$deb"
fi

in_fresh_system() {
    root=${ROOT:-$empty/root}
    release=$(. /etc/os-release && echo "$VERSION_CODENAME")
    [ -e "$root/usr" ] || debootstrap --variant=minbase --include=python3 "$release" "$root" >"$empty/log" ||
        fail "$(tail -n 3 "$empty/log")"
    inside() { chroot "$root" env -i HOME=/root PATH=/usr/sbin:/usr/bin:/sbin:/bin "$@"; }
    files() { (cd "$root" && find bin/ etc home lib/ opt root sbin/ srv usr var/lib/dpkg/info | sort); }
    rm -rf "$root/trial"
    mkdir "$root/trial"
    cp "dist/$deb" tests/guide.sh tests/pages.sh "$root/trial/"
    files >"$empty/before"
    inside dpkg -i "/trial/$deb" >/dev/null
    inside dpkg --verify helgrothy
    inside sh -c 'cd /usr/share/doc/helgrothy &&
        sh /trial/pages.sh . /usr/share/man/man*/dlx* /usr/share/man/man1/helgrothy*'
    inside dpkg -P helgrothy >/dev/null
    files | diff "$empty/before" - || fail "left behind"
    rm -rf "$root/trial"
}

in_empty_folder() {
    dpkg-deb -x "dist/$deb" "$empty/root"
    usr=$empty/root/usr
    cp tests/guide.sh tests/pages.sh "$empty/"
    (cd "$usr/share/doc/helgrothy" && env -i HOME="$empty" PATH="$usr/bin:/usr/bin:/bin" \
        PYTHONPATH="$usr/lib/python3/dist-packages" sh "$empty/pages.sh" . "$usr"/share/man/man*/*)
}

if command -v debootstrap >/dev/null && [ "$(id -u)" = 0 ]; then in_fresh_system; else in_empty_folder; fi

mv "dist/$deb" "$empty/first"
(umask 077; TZ=Asia/Tokyo MAKEFLAGS= make -s deb VERSION="$version")
cmp "$empty/first" "dist/$deb"
mv "$empty/first" "dist/$deb"
