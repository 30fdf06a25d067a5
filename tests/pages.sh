#!/bin/sh
# pages.sh FOLDER MANUAL..: runs the commands of each page of a folder, which is the repository or a release, and of
# the manual pages, packed or not. Prints what differs, and nothing else.
set -eu
guide=$(dirname "$(readlink -f "$0")")/guide.sh
folder=$1
shift
unpacked=$(mktemp -d)
trap 'rm -rf "$unpacked"' EXIT
trap 'exit 2' HUP INT TERM

differ=0
for page; do
    case $page in
        *.gz) plain=$unpacked/$(basename "$page" .gz); gzip -dc "$page" >"$plain" ;;
        *) plain=$(readlink -f "$page") ;;
    esac
    (cd "$folder" && sh "$guide" "$plain") || differ=1
done
cd "$folder"
# The repository's folder has all that a release has, so that one's README is tried too. A release has no crates.
[ ! -e release/readme.sh ] ||
    { sh release/readme.sh 0 >"$unpacked/README.md" && sh "$guide" "$unpacked/README.md"; } || differ=1
[ ! -e crates.txt ] || sh "$guide" docs/CALLING.md || differ=1
for page in README.md docs/GUIDE.md docs/MODELS.md docs/ENDLESS.md docs/LONG.md docs/COUNT.md docs/kinds/*.md; do
    sh "$guide" "$page" || differ=1
done
exit "$differ"
