#!/bin/sh
# Each problem of `examples` says in a comment which program finds how many solutions, as `| dlx1: 92 solutions`. Prints
# where the program in `bin` finds another number, and nothing else.
cd "$(dirname "$0")/.." || exit 1
differ=0
for file in examples/*.dlx; do
    said=$(sed -n 's/^| \(dlx[a-z0-9-]*\): \([0-9,]*\) solution.*/\1 \2/p' "$file" | tr -d ,)
    program=${said% *}
    words=
    [ "$program" != dlx-count ] || words=1
    found=$(timeout 60 "bin/$program" $words <"$file" 2>&1 | tr -cd 0-9)
    if [ "${said#* }" != "$found" ]; then
        echo "$file: ${said:-no number}, and found $found"
        differ=1
    fi
done
exit "$differ"
