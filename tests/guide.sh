#!/bin/sh
# sh tests/guide.sh docs/GUIDE.md, in the repository's top folder or that of a release: pastes each `sh` block of the
# page, in order, into one shell, and compares what comes, standard error included, with the block behind it, or with
# nothing where none is. A block `sh if FILE`, with the one behind it, counts only where the folder has FILE. So too
# each command of its two tables, with the row's message or status. Of a manual page it runs the examples, each line
# behind `$`. Those of manual pages and of docs/kinds are run in an empty folder, with the programs in `bin` or else on
# the path. Prints what differs, and nothing else.
[ $# = 1 ] && [ -r "$1" ] || { echo "Usage: sh guide.sh PAGE" >&2; exit 2; }
folder=$(mktemp -d) || exit 2
trap 'rm -rf "$folder"' EXIT
trap 'exit 2' HUP INT TERM
mkdir "$folder/got" "$folder/want" "$folder/tmp"

# One script of all blocks, each with its output in a file of its own; the page's outputs beside it.
# A file's name is the line of the page on which the block or row stands.
awk -v folder="$folder" '
function plain(line) {
    sub(/^    /, "", line); gsub(/\\\\/, "\001", line); gsub(/\\-/, "-", line); gsub("\001", "\\", line)
    return line
}
function begin() { print "{" > script; at = sprintf("%05d", NR); want = folder "/want/" at; printf "" > want }
function end() { print "} >\"" folder "/got/" at "\" 2>&1 </dev/null" > script }
function code(text) {
    if (text !~ /^`.*`$/) { print "line " NR ": " text " is no code"; bad = 1 }
    return substr(text, 2, length(text) - 2)
}
BEGIN { script = folder "/all.sh"; printf "" > script }
FNR == 1 && FILENAME ~ /docs\/kinds\// { print "cd \"$TMPDIR\"" > script }
FILENAME ~ /[.][15]$/ {
    if ($0 == ".nf") inside = "man"
    else if ($0 == ".fi") inside = ""
    else if (inside == "man" && /^    [$] /) {
        if (want == "") print "cd \"$TMPDIR\"" > script
        close(want); begin(); print substr(plain($0), 3) > script; end()
    }
    else if (inside == "man" && want == "") { print "line " NR ": output of no command"; bad = 1 }
    else if (inside == "man") print plain($0) > want
    next
}
inside == "sh" && $0 == "```" { end(); inside = ""; close(want); fresh = 1; next }
inside == "sh" { print > script; next }
inside == "text" && $0 == "```" { inside = ""; close(want); fresh = 0; next }
inside == "text" { if (fresh) print > want; next }
inside == "left out" { if ($0 == "```") inside = ""; next }
/^```sh if / && system("test -e " substr($0, 10)) { inside = "left out"; is_left_out = 1; next }
/^```sh($| if )/ { begin(); inside = "sh"; is_left_out = 0; next }
$0 == "```" && is_left_out { inside = "left out"; is_left_out = 0; next }
$0 == "```" { if (fresh == 0) { print "line " NR ": output of no command"; bad = 1 }; inside = "text"; next }
/^```/ { print "line " NR ": a block of another kind"; bad = 1; next }
/^[|] (`Line |[0-5] [|])/ {
    row = substr($0, 3)
    gsub(/\\[|]/, "\001", row)
    split(row, cell, / [|] /)
    gsub("\001", "|", cell[1]); gsub("\001", "|", cell[2])
    is_status = cell[1] ~ /^[0-5]$/
    message = is_status ? cell[1] : code(cell[1])
    command = is_status ? "{ " code(cell[2]) "; } >/dev/null 2>&1; echo $?" : code(cell[2])
    begin()
    print command > script
    print message > want
    end(); close(want); fresh = 0
}
END { close(script); if (want == "") { print "no commands"; bad = 1 }; exit bad }
' "$1" || exit 1

case $1 in *.[15] | *docs/kinds/*) PATH=$PWD/bin:$PATH ;; esac
export PYTHONDONTWRITEBYTECODE=1
TMPDIR="$folder/tmp" sh "$folder/all.sh" || :
differ=0
for want in "$folder"/want/*; do
    line=${want##*/}
    if ! diff "$want" "$folder/got/$line" >"$folder/diff" 2>&1; then
        echo "$1, line $((1$line - 100000)): < the page, > the run"
        cat "$folder/diff"
        differ=1
    fi
done
exit $differ
