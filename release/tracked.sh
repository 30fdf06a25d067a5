#!/bin/sh
# tracked.sh COMMAND WORD..: runs a command that packs, in a copy of the tree with the files that git tracks, the
# programs and their notes, and nothing else. What the command makes in dist/ there is then put into dist/ here, which
# stays as it was where anything fails.
set -eu
export LC_ALL=C
umask 022
names="dlx1 dlx2 dlx3 dlxcheck dlx_span dlx_join dlx_count dlx_none"
fail() {
    echo "$*" >&2
    exit 1
}

inside=$(git rev-parse --show-prefix) && [ -z "$inside" ] ||
    fail "nothing is packed: git tells what is, and this folder isn't the top of a repository of git"
[ -n "${SOURCE_DATE_EPOCH-}" ] || fail "nothing is packed: without a commit, SOURCE_DATE_EPOCH has to be set"
odd=$(git diff-files --name-only --diff-filter=DT)
[ -z "$odd" ] || fail "nothing is packed: what git tracks is missing, or no plain file:
$odd"

made=$(mktemp -d)
trap 'rm -rf "$made"' EXIT
trap 'exit 2' HUP INT TERM
tree=$made/tree
mkdir -p "$tree/bin"
git ls-files -z >"$made/files"
xargs -0 cp -P --parents -t "$tree" -- <"$made/files"
links=$(cd "$tree" && find . -type l)
[ -z "$links" ] || fail "nothing is packed: git tracks links:
$links"
cp -R bin/.built "$tree/bin/"
for name in $names; do cp "bin/$(echo "$name" | tr _ -)" "$tree/bin/"; done
# They were compared with all sources already.
(cd "$tree" && scripts/build --check $names) 2>"$made/told" ||
    fail "nothing is packed: the programs were built of files that git doesn't track:
$(git ls-files --others -- 'crates/*.rt' 'crates/*.antt')"

(cd "$tree" && "$@")
mkdir -p dist
for file in "$tree"/dist/*; do
    new=dist/.${file##*/}.new
    cp "$file" "$new" && mv -f "$new" "dist/${file##*/}" || {
        rm -f "$new"
        fail "${file##*/} can't be written into dist"
    }
done
