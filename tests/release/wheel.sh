#!/bin/sh
# wheel.sh VERSION: installs the wheel that `make wheel` made into a new environment, without network, and uses it
# there; and makes it again, which has to give the same bytes. PYTHON names the Python. Prints what differs.
set -eu
version=$1
python=${PYTHON:-python3}
wheel=helgrothy-$version-py3-none-manylinux_2_34_x86_64.whl
empty=$(mktemp -d)
trap 'rm -rf "$empty"' EXIT
trap 'exit 2' HUP INT TERM

"$python" -m venv "$empty/venv"
"$empty/venv/bin/pip" install -q --no-index --disable-pip-version-check "dist/$wheel"
cp "dist/$wheel" "$empty/first"
cat >"$empty/use.py" <<'END'
import importlib.metadata
import sys

from helgrothy import Problem

assert importlib.metadata.version("helgrothy") == sys.argv[1]
queens = Problem([f"r{r}" for r in range(4)] + [f"c{c}" for c in range(4)],
                 secondary=[f"{way}{k}" for way in "ab" for k in range(7)],
                 options=[[f"r{r}", f"c{c}", f"a{r + c}", f"b{r - c + 3}"] for r in range(4) for c in range(4)])
print(queens.count())
END
said=$(cd "$empty" && env -i HOME="$empty" PATH="$empty/venv/bin:/usr/bin:/bin" sh -eu -c '
    printf "A B\nA\nB\nA B\n" | dlx1 2>&1
    helgrothy queens 4 2>&1
    # A page has the files that are no modules.
    helgrothy queens 4 --html 2>/dev/null | tail -n 1
    python use.py "$1"
    # Without the environment on the path the package finds its own programs.
    env PATH=/nowhere "$2/venv/bin/python" use.py "$1"
    # The commands load nothing from the folder that they are in, whatever PYTHONPATH is, also by a link from elsewhere.
    mkdir strangers && cd strangers
    for module in sitecustomize site os re argparse colorsys random helgrothy; do echo "print(\"HIJACKED\")" >$module.py; done
    ln -s venv/bin/helgrothy ../link
    for path in "" . :; do
        PYTHONPATH=$path helgrothy queens 1 2>&1
        PYTHONPATH=$path ../link --version
    done' sh "$version" "$empty")
[ "$said" = "Altogether 2 solutions.
. . Q .
Q . . .
. . . Q
. Q . .
Altogether 1 solution (limit).
</html>
2
2
Q
Altogether 1 solution (limit).
helgrothy $version
Q
Altogether 1 solution (limit).
helgrothy $version
Q
Altogether 1 solution (limit).
helgrothy $version" ] || { echo "$said"; exit 1; }
"$empty/venv/bin/pip" uninstall -q -y helgrothy
left=$(find "$empty/venv" -name '*helgrothy*' -o -name 'dlx*')
[ -z "$left" ] || { echo "left behind: $left"; exit 1; }

(umask 077; TZ=Asia/Tokyo MAKEFLAGS= make -s wheel VERSION="$version")
cmp "$empty/first" "dist/$wheel"
mv "$empty/first" "dist/$wheel"
