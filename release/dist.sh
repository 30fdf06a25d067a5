#!/bin/sh
# dist.sh VERSION: the release for Linux as an archive in dist/, from the programs as built. The same files give the
# same bytes: they are sorted, nobody's, and of the time SOURCE_DATE_EPOCH.
set -eu
export LC_ALL=C
version=$1
name=helgrothy-$version-linux-x86_64
made=$(mktemp -d)
trap 'rm -rf "$made"' EXIT
trap 'exit 2' HUP INT TERM

MAKEFLAGS= make -s install LIBRARY= VERSION="$version" DESTDIR="$made/$name" PREFIX= docdir= pythondir=/python
# No pipes: of these the status of the last command alone counts.
cd "$made/$name"
find . -type f >"$made/files"
sort -o "$made/files" "$made/files"
xargs sha256sum <"$made/files" >"$made/sums"
mv "$made/sums" SHA256SUMS
cd "$OLDPWD"
tar -c --sort=name --format=ustar --owner=0 --group=0 --numeric-owner --mode=u=rwX,go=rX \
    --mtime="@${SOURCE_DATE_EPOCH:?}" -f "$made/$name.tar" -C "$made" "$name"
gzip -9n "$made/$name.tar"
mkdir -p dist
mv "$made/$name.tar.gz" "dist/$name.tar.gz"
