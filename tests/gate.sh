#!/bin/sh
# gate.sh [--page PAGE]: `rt ci`, with its output and its status. With --page, if it passes, the page's row for as many
# processors gets the kit, the number of mutants, and the minutes (elapsed, of a processor).
# RT_JOBS gives each processor a proof of its own, if there is one to begin. Without it `rt ci` leaves processors idle by
# its estimate of memory (four proofs took 6 GB), or gives a proof two, which take up to half as much CPU time more.
cd "$(dirname "$0")/.." || exit 2
page=
[ "${1-}" != --page ] || page=${2:?PAGE}
jobs=${RT_JOBS:-$(nproc)}
begun=$(date +%s)
# `make all` takes the programs that this builds, unless somebody touches a source of theirs meanwhile.
programs="dlx1 dlx2 dlx3 dlxcheck dlx_span dlx_join dlx_count dlx_none"
before=$(scripts/build --before $programs) || exit
RT_JOBS=$jobs rt ci || exit
scripts/build --note "$before" $programs
if [ -n "$page" ]; then
    taken=$(mktemp) || exit 2
    times >"$taken"
    of_a_processor=$(awk -F '[ms ]+' 'NR == 2 { printf "%.0f", $1 + $2 / 60 + $3 + $4 / 60 }' "$taken")
    elapsed=$((($(date +%s) - begun + 30) / 60))
    kit=$(rt --version | cut -d ' ' -f 1)
    mutants=$(find crates/*/must-fail -name '*.edit' | wc -l)
    row="| $jobs | $kit | $mutants | $elapsed | $of_a_processor |"
    awk -v jobs="$jobs" -v row="$row" '$0 ~ "^[|] " jobs " [|] rattle-kit" { $0 = row } { print }' "$page" >"$taken" &&
        cat "$taken" >"$page"
    rm "$taken"
fi
