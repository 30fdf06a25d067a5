#!/bin/sh
# bindings.sh: compiles the example in C with the library that `make lib` built, and compares what it prints. Then
# installs the library, compiles corners.c and the example by what pkg-config says of it, loads it in Python, and builds
# and tests the crate for Rust where cargo is. Prints what differs.
set -eu
cd "$(dirname "$0")/../.."
work=$(mktemp -d)
trap 'rm -rf "$work"' EXIT
trap 'exit 2' HUP INT TERM
strict="-std=c99 -Wall -Wextra -Werror"

printf '1:\n a d f (2 of 2)\n b g (1 of 1)\n c e (1 of 1)\n' >"$work/listing"
{ cat "$work/listing" && printf 'status 0\nline 2: unknown item\n'; } >"$work/c.wanted"
{ cat "$work/listing" && printf 'Done\nline 2: unknown item\n'; } >"$work/rust.wanted"
# Each fault has its number from the library's code, and its words from those that the programs' texts are proved equal
# to.
awk -v 'words=crates/xc_input/specs/FaultTexts.antt' '
    BEGIN {
        while ((getline line < words) > 0)
            while (match(line, /\([A-Za-z]+, codes "[^"]*"\)/)) {
                row = substr(line, RSTART + 1, RLENGTH - 3)
                line = substr(line, RSTART + RLENGTH)
                split(row, part, /, codes "/)
                text[part[1]] = part[2]
            }
    }
    match($0, /FaultKind::[A-Za-z]+ => [0-9]+/) {
        split(substr($0, RSTART + 11, RLENGTH - 11), part, / => /)
        print part[2], text[part[1]]
    }' crates/xc_c/src/numbers.rt >"$work/texts"
cat VERSION "$work/texts" >"$work/corners.wanted"
sed -n 's/^uint32_t \(helgrothy_[a-z]*\)(.*/\1/p' bindings/c/helgrothy.h | LC_ALL=C sort >"$work/calls"
gcc $strict -Ibindings/c bindings/c/example.c bindings/out/libhelgrothy.a -o "$work/c"
"$work/c" | diff - "$work/c.wanted"
MAKEFLAGS= make -s install-lib PREFIX="$work/with space"
lib="$work/with space/lib"
flags=$(PKG_CONFIG_LIBDIR="$lib/pkgconfig" pkg-config --cflags --libs helgrothy)
# `--wrap` reaches no shared library.
eval "gcc $strict tests/bindings/corners.c -Wl,-Bstatic $flags -Wl,-Bdynamic \
    -Wl,--wrap=malloc,--wrap=realloc,--wrap=free -o \"\$work/corners\""
"$work/corners" | diff - "$work/corners.wanted"

eval "gcc $strict bindings/c/example.c $flags -o \"\$work/shared\""
LD_LIBRARY_PATH=$lib "$work/shared" | diff - "$work/c.wanted"
! "$work/shared" 2>/dev/null || { echo "the program that was linked with the shared library runs without it"; exit 1; }
nm -D --defined-only "$lib/libhelgrothy.so" | awk '{ print $3 }' | diff - "$work/calls"
python3 tests/bindings/calls.py "$lib/libhelgrothy.so"

if command -v cargo >/dev/null; then
    export CARGO_TARGET_DIR="$work/target" RUSTFLAGS='-D warnings'
    cd bindings/rust
    cargo test --quiet --offline >"$work/tests" 2>&1 || { cat "$work/tests"; exit 1; }
    HELGROTHY_LIB_DIR=$lib cargo run --quiet --offline --example covers | diff - "$work/rust.wanted"
    HELGROTHY_LIB_DIR=$work cargo build --quiet --offline 2>"$work/missing" || true
    grep -q "no $work/libhelgrothy.a: run .make lib" "$work/missing" || { cat "$work/missing"; exit 1; }
    cd ../..
fi

MAKEFLAGS= make -s uninstall-lib PREFIX="$work/with space"
left=$(find "$work/with space" ! -type d)
[ -z "$left" ] || { echo "left behind: $left"; exit 1; }
