#!/bin/sh
# dist.sh VERSION: unpacks the release that `make dist` made into an empty folder and runs its pages there, with the
# system's programs alone on the path; and makes it again, which has to give the same bytes. Prints what differs.
set -eu
version=$1
name=helgrothy-$version-linux-x86_64
empty=$(mktemp -d)
trap 'rm -rf "$empty"' EXIT
trap 'exit 2' HUP INT TERM

cp tests/guide.sh tests/pages.sh "$empty/"
tar -xzf "dist/$name.tar.gz" -C "$empty"
for page in "$empty/$name"/share/man/man*/*; do
    head -n 1 "$page" | grep -q "\"Helgrothy $version\"" || { echo "$page: not of $version"; exit 1; }
done
(cd "$empty/$name" && env -i HOME="$empty" PATH=/usr/bin:/bin sh -eu -c '
    if command -v rt; then echo "the toolchain is on the path"; exit 1; fi
    sh ../pages.sh . share/man/man*/*
    # As its README says for one user.
    mkdir -p ~/.local
    grep "^    .*cp -r" README.md >../in_place.sh
    sh -eu ../in_place.sh
    cd && PATH=$PWD/.local/bin:$PATH
    helgrothy queens 4 >/dev/null 2>&1 || echo "not in place for one user"')

mv "dist/$name.tar.gz" "$empty/first"
(umask 077; TZ=Asia/Tokyo MAKEFLAGS= make -s dist VERSION="$version")
cmp "$empty/first" "dist/$name.tar.gz"
mv "$empty/first" "dist/$name.tar.gz"
