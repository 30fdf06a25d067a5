#!/bin/sh
# install.sh: installs into an empty folder, runs the pages of what is there, with the system's programs alone on the
# path besides, and types words for shells to complete; then uninstalls, after which no file is left. Prints what differs.
set -eu
empty=$(mktemp -d)
trap 'rm -rf "$empty"' EXIT
trap 'exit 2' HUP INT TERM

MAKEFLAGS= make -s install PREFIX="$empty/with space"
share="$empty/with space/share"
cp tests/guide.sh tests/pages.sh "$empty/"
(cd "$share/doc/helgrothy" && env -i HOME="$empty" PATH="$empty/with space/bin:/usr/bin:/bin" \
    PYTHONPATH="$share/helgrothy" PYTHONDONTWRITEBYTECODE=1 sh "$empty/pages.sh" . "$share"/man/man*/*)
python3 tests/release/completion.py bash "$share/bash-completion/completions/dlx1"
python3 tests/release/completion.py zsh "$share/zsh/site-functions/_helgrothy"
python3 tests/release/completion.py fish "$share/fish/vendor_completions.d/helgrothy.fish"
MAKEFLAGS= make -s uninstall PREFIX="$empty/with space"
left=$(find "$empty/with space" ! -type d)
[ -z "$left" ] || { echo "left behind: $left"; exit 1; }
