#!/bin/sh
# deb.sh VERSION: a Debian package in dist/, from the programs as built. The same files give the same bytes; they are
# of the time SOURCE_DATE_EPOCH.
set -eu
export LC_ALL=C
umask 022
version=$1
# A package that is packed by several threads may differ.
export DPKG_DEB_THREADS_MAX=1
maintainer="Helgrothy maintainers <maintainers@users.noreply.helgrothy.example>"
root=$(mktemp -d)
trap 'rm -rf "$root"' EXIT
trap 'exit 2' HUP INT TERM
chmod 755 "$root"

MAKEFLAGS= make -s install LIBRARY= VERSION="$version" DESTDIR="$root" PREFIX=/usr pythondir=/usr/lib/python3/dist-packages \
    zshdir=/usr/share/zsh/vendor-completions
find "$root/usr/share/man" -type f -exec gzip -9n {} +
# The symbols of a program say nothing to its users.
for program in dlx1 dlx2 dlx3 dlxcheck dlx-span dlx-join dlx-count dlx-none; do strip --strip-unneeded "$root/usr/bin/$program"; done
doc=$root/usr/share/doc/helgrothy
cp release/copyright "$doc/copyright"
# No pipes: of these the status of the last command alone counts.
date=$(date -R -u -d "@${SOURCE_DATE_EPOCH:?}")
{
    printf 'helgrothy (%s) unstable; urgency=medium\n\n  * What is new is in CHANGELOG.md.\n\n' "$version"
    printf ' -- %s  %s\n' "$maintainer" "$date"
} >"$doc/changelog"
gzip -9n "$doc/changelog"

mkdir "$root/DEBIAN"
for script in postinst prerm; do install -m 755 "release/$script" "$root/DEBIAN/$script"; done
cd "$root"
find usr -type f >DEBIAN/md5sums
sort -o DEBIAN/md5sums DEBIAN/md5sums
xargs md5sum <DEBIAN/md5sums >DEBIAN/sums
mv DEBIAN/sums DEBIAN/md5sums
cd "$OLDPWD"
size=$(du -sk --apparent-size "$root/usr")
cat >"$root/DEBIAN/control" <<END
Package: helgrothy
Version: $version
Architecture: amd64
Maintainer: $maintainer
Installed-Size: ${size%%[!0-9]*}
Depends: libc6 (>= 2.34)
Recommends: python3 (>= 3.9), clasp
Suggests: cadical, coinor-cbc
Section: math
Priority: optional
Description: exact cover solvers by dancing links, whose code is proved
 dlx1 finds all ways to choose options so that each primary item is in exactly
 one of them and each secondary item in at most one; dlx2 adds colours on
 secondary items, dlx3 bounds on primary items. dlxcheck judges a listing of
 solutions, whichever solver wrote it. They are for puzzles, tilings,
 timetables and test designs. The Python package helgrothy, of which nothing
 is proved, makes problems and draws their solutions, and searches by all
 processors or many machines.
END
mkdir -p dist
dpkg-deb --root-owner-group -Zxz -b "$root" "dist/helgrothy_${version}_amd64.deb" >/dev/null
