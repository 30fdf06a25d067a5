#!/usr/bin/env python3
"""cost.py CRATE [N]: prints what a check of a crate spends its time on.

First remove the crate's `out`, and run `rt check --jobs 1` in its folder on a machine with little else to do. Each
module is kept as soon as it is checked, so the time from one to the next is what the next one took. Printed are the
seconds of all modules by kind, then the N costliest (20) of the files that are written by hand, lemmas and answers, and
the N costliest functions with all that the kit makes for them. What comes first on a function's way has what it loads
counted in, so look twice at a single high figure.
"""
import argparse
import re
import sys
from collections import Counter
from collections.abc import Iterator
from pathlib import Path

TOP = Path(__file__).resolve().parents[2]
# What the kit makes for a function, and the answers that are written for it.
PARTS = "Lts Proof Tie Answers Invariants Goals Reads Layout Kinds Named Code Mir Statement Met Symbol".split()
MADE = re.compile(rf"(.*?)\.({'|'.join(PARTS)})\b")


def modules(crate: str) -> Iterator[tuple[str, float]]:
    """The modules that a check kept, in its order, each with the seconds since the one before it."""
    kept = [(file.stat().st_mtime_ns, file.name) for file in (TOP / "crates" / crate).glob("out/incremental/*/*.oantt")]
    kept.sort()
    for (before, _), (time, name) in zip(kept, kept[1:]):
        yield name.removesuffix(".oantt"), (time - before) / 1e9


def main() -> int:
    parser = argparse.ArgumentParser(description=__doc__, formatter_class=argparse.RawDescriptionHelpFormatter)
    parser.add_argument("crate")
    parser.add_argument("most", nargs="?", type=int, default=20)
    given = parser.parse_args()
    kinds: Counter[str] = Counter()
    written: Counter[str] = Counter()
    functions: Counter[str] = Counter()
    proofs = TOP / "crates" / given.crate / "proofs"
    for name, seconds in modules(given.crate):
        library, _, path = name.partition(".")
        made = MADE.match(path)
        kinds[made.group(2) if made else library] += seconds
        if library == f"Rattle-{given.crate}-proofs" and path:
            if made:
                functions[made.group(1)] += seconds
            if (proofs / f"{path.replace('.', '/')}.antt").is_file():
                written[path] += seconds
    if not kinds:
        parser.error(f"{given.crate} has nothing in its `out` that a check kept")
    for title, counted in (("by kind", kinds), ("written by hand", written), ("functions", functions)):
        print(f"{title}: {sum(counted.values()):.1f} seconds")
        for name, seconds in counted.most_common(given.most):
            print(f"{seconds:7.2f} {name}")
    return 0


if __name__ == "__main__":
    sys.exit(main())
