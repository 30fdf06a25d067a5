#!/bin/sh
# The statuses of the programs that `rt ci` built, on what each refuses, and which file `dlx-join` names. No contract
# stands on a `main` or on files, and a stored run shows one input; `streams.py` tries closed streams. Prints what
# differs, and nothing else.
# A problem without colours or bounds is of every kind, so only a refused text tells which kind a program reads.
cd "$(dirname "$0")/.." || exit 1
differ=0

# expect STATUS PROGRAM WORD..: a run over standard input, of a minute at most
expect() {
    wanted=$1
    program=crates/$2/out/$2
    shift 2
    timeout 60 "$program" "$@" >/dev/null 2>&1
    status=$?
    if [ "$status" != "$wanted" ]; then
        echo "$program $*: status $status, not $wanted"
        differ=1
    fi
}

# tells MESSAGE PROGRAM WORD..: a run over standard input, whose messages are this line
tells() {
    wanted=$1
    program=crates/$2/out/$2
    shift 2
    told=$(timeout 60 "$program" "$@" 2>&1 >/dev/null)
    if [ "$told" != "$wanted" ]; then
        echo "$program $*: $told, not $wanted"
        differ=1
    fi
}

# closed FORMAT WORD..: a text of a span by its record, up to the digest of the text, with that
closed() {
    # shellcheck disable=SC2059
    printf "$@" | python3 tests/text_digest.py
}

expect 2 dlx1 <<'END'
A | x
A x:1
END
expect 2 dlx2 <<'END'
1:2|A
A
END
expect 2 dlx3 <<'END'
2:1|A
A
END
expect 1 dlx1 t0 </dev/null
expect 1 dlx2 m </dev/null
expect 1 dlx3 v1 </dev/null
expect 3 dlxcheck missing.dlx </dev/null
expect 3 dlxcheck . </dev/null
expect 1 dlxcheck missing.dlx 4 </dev/null
expect 1 dlxcheck missing.dlx 4 <&-
expect 3 dlxcheck missing.dlx <&-
folder=$(mktemp -d) && mkfifo "$folder/fifo" || exit 1
expect 1 dlxcheck "$folder/fifo" 4 </dev/null
expect 3 dlxcheck "$folder/fifo" <&-
rm -r "$folder"
expect 2 dlx_span 1 m0 0 - - <<'END'
A | x
A x:1
END
expect 1 dlx_span 1 m0 0 - </dev/null
expect 1 dlx_span 1 m0 0 2 1 </dev/null
# Of which problem the texts of spans are.
problem='problem 0123456789abcdef'
folder=$(mktemp -d) || exit 1
closed 'from - until - solutions x steps 1 %s' "$problem" >"$folder/number"
closed 'from - until - solutions 1 steps 1' >"$folder/short"
closed 'from - until - solutions 1 steps 1 %s' "$problem" >"$folder/whole"
printf 'from - until - solutions 1 steps 1 %s\n' "$problem" >"$folder/unclosed"
sed 's/steps 1/steps 2/' "$folder/whole" >"$folder/altered"
expect 2 dlx_join m0 <"$folder/number"
expect 2 dlx_join m0 <"$folder/short"
expect 0 dlx_join m0 <"$folder/whole"
expect 2 dlx_join m0 <"$folder/unclosed"
expect 2 dlx_join m0 <"$folder/altered"
rm -r "$folder"
expect 5 dlx_join m0 </dev/null
expect 1 dlx_join m2 </dev/null
expect 1 dlx_join m2 <&-
expect 3 dlx_join m0 missing.span </dev/null
folder=$(mktemp -d) || exit 1
first=$folder/first
closed 'from - until 2 solutions 1 steps 1 %s' "$problem" >"$first"
closed 'from 3 until - solutions 1 steps 1 %s' "$problem" >"$folder/third"
closed 'from 2 until 3 solutions 1 steps 1 %s' "$problem" >"$folder/damaged"
echo >>"$folder/damaged"
closed 'from 2 until - solutions 1 steps 1 problem 0123456789abcdee' >"$folder/other"
printf 'from -' >"$folder/cut"
printf 'from - %s\n' "$problem" >"$folder/open"
: >"$folder/empty"
tells 'standard input: line 1: gap from - until 3.' dlx_join m0 <"$folder/third"
tells 'standard input: read failed.' dlx_join m0 <"$folder"
tells "$folder: read failed." dlx_join m0 "$first" "$folder" "$first" </dev/null
tells "$folder/missing: read failed." dlx_join m0 "$first" "$folder/missing" "$first" </dev/null
tells "$folder/third: line 1: gap from 2 until 3." dlx_join m0 "$folder/empty" "$first" "$folder/third" </dev/null
tells "$folder/other: line 1: another problem than in $first: line 1." \
    dlx_join m0 "$folder/empty" "$first" "$folder/other" </dev/null
tells "$first: line 2: gap from 2 until -." dlx_join m0 "$first" </dev/null
tells "$folder/damaged: line 2: not the text of a span." dlx_join m0 "$first" "$folder/damaged" </dev/null
tells "$folder/cut: line 1: not the text of a span." dlx_join m1 "$folder/cut" "$first" </dev/null
tells "$folder/open: line 2: not the text of a span." dlx_join m1 "$folder/open" "$folder/third" </dev/null
# Each of many files is read once.
at=-
set --
for until in 2 3 4 5 6 7 8 9 10 11 12 -; do
    closed 'from %s until %s solutions 1 steps 1 %s' "$at" "$until" "$problem" >"$folder/from$at"
    set -- "$@" "$folder/from$at"
    at=$until
done
tells 'Altogether 12 solutions.' dlx_join m0 "$@" </dev/null
rm -r "$folder"
for words in '' 0 '1 m1' '1 b' '1 b1 b1' '1 bx' '1 n' '1 n0' '1 n00' '1 n-1' '1 n1 b1' '1 b1 n1 n1' '1 o1' '1 o b1' '1 o n1' '1 o o' '1 b1 n1 o'; do
    # shellcheck disable=SC2086
    expect 1 dlx_count $words </dev/null
done
expect 2 dlx_count 1 <<'END'
A | x
A x:1
END
expect 2 dlx_count 2 <<'END'
1:2|A
A
END
expect 0 dlx_count 1 <<'END'
A
A
END
expect 0 dlx_count 1 b0 <<'END'
A
A
END
tells 'Altogether 2 solutions.' dlx_count 1 <<'END'
A
A
A
END
tells 'Altogether 6 solutions.' dlx_count 3 <<'END'
1:2|A 0:1|B
A B
A
A
END
tells 'Altogether 1 solution.' dlx_count 3 b0 <<'END'
A
A
END
tells 'Usage: dlx-count 1|2|3 [bMEGABYTES] [nNUMBER|o]' dlx_count 4 </dev/null
expect 0 dlx_count 1 n2 <<'END'
A
A
A
END
expect 5 dlx_count 1 n3 <<'END'
A
A
A
END
tells 'There are fewer than 100000000000000000000 solutions.' dlx_count 3 b0 n100000000000000000000 <<'END'
0:2|A
A
A
END
tells 'There are no solutions.' dlx_count 1 n1 <<'END'
A B
A
END
tells 'There are fewer than 2 solutions.' dlx_count 1 n2 <<'END'
A B
A
END
tells 'Option ignored (no primary items): line 2
Altogether 1 solution.' dlx_count 2 b0 o <<'END'
A | x
x
A x:r
END
expect 2 dlx_count 1 o <<'END'
A
B
END
for word in n1 o; do
    printf 'A\nA\n' | crates/dlx_count/out/dlx_count 1 $word >&- 2>/dev/null
    [ $? = 3 ] || { echo "dlx_count 1 $word >&-: another status than 3"; differ=1; }
done
tells 'Line 2: unknown item.' dlx_count 1 <<'END'
A
B
END
# What shows that three pigeons have no hole each of two, or doesn't.
folder=$(mktemp -d) || exit 1
printf 'a b c | x y\na x\na y\nb x\nb y\nc x\nc y\n' >"$folder/pigeons"
printf '| of pigeons\n1 1 1\n| of holes\n-1 -1\n' >"$folder/weights"
printf '1 1 1 -2 -1\n' >"$folder/others"
printf '1 1\n1 x -1\n' >"$folder/spoiled"
printf '1 1 1 -1\n' >"$folder/few"
printf -- '-1 0\n0\n' >"$folder/proof"
printf '0\n' >"$folder/short"
printf -- '-1 -2 0\n' >"$folder/unended"
printf -- '-1 -2 0\nx 0\n' >"$folder/words"
printf 'A\nB\n' >"$folder/faulty"
shown() {
    wanted=$1
    line=$2
    shift 2
    expect "$wanted" dlx_none "$@" </dev/null
    tells "$line" dlx_none "$@" </dev/null
}
shown 0 'No solution.' 1 "$folder/pigeons" "$folder/weights" w
shown 0 'No solution.' 1 "$folder/pigeons" "$folder/proof"
shown 0 '' 1 "$folder/pigeons"
usage='Usage: dlx-none 1|2|3 PROBLEM [FILE [w]]'
shown 1 "$usage"
shown 1 "$usage" 1
shown 1 "$usage" 4 "$folder/pigeons"
shown 1 "$usage" 1 "$folder/missing" "$folder/missing" v
shown 1 "$usage" 1 "$folder/pigeons" "$folder/weights" w w
shown 2 'Line 2: unknown item.' 1 "$folder/faulty" "$folder/weights" w
shown 2 'Line 2: unknown item.' 1 "$folder/faulty"
shown 2 'Weights line 2: no weight.' 1 "$folder/pigeons" "$folder/spoiled" w
shown 2 'Weights: 4 numbers, and 5 items.' 1 "$folder/pigeons" "$folder/few" w
shown 3 'Read failed.' 1 "$folder/missing"
shown 3 'Read failed.' 1 "$folder/pigeons" "$folder/missing"
shown 3 'Read failed.' 1 "$folder/pigeons" "$folder" w
shown 5 "The weights don't show it." 1 "$folder/pigeons" "$folder/others" w
shown 5 "Step 1 doesn't follow." 1 "$folder/pigeons" "$folder/short"
shown 5 'Step 2 is no step.' 1 "$folder/pigeons" "$folder/words"
shown 5 'The proof ends before the empty clause.' 1 "$folder/pigeons" "$folder/unended"
shown 5 'The proof ends before the empty clause.' 1 "$folder/pigeons" /dev/null
crates/dlx_none/out/dlx_none 1 "$folder/pigeons" >/dev/full 2>/dev/null </dev/null
[ $? = 3 ] || { echo "dlx_none into /dev/full: another status than 3"; differ=1; }
rm -r "$folder"
exit $differ
