#!/usr/bin/env python3
"""trial.py CASES SEED: dlx-count against dlx1, dlx2 and dlx3 on random problems of their kinds.

Each is counted as it is, with its items and options in another order, and as a problem of a kind that allows more. A
problem that differs is left in a file, which the line names. The last line is `N passed, M failed`.
"""
import random
import sys
import tempfile

from problems import drawn
from running import Tally, count, search


def main() -> int:
    cases, seed = map(int, sys.argv[1:])
    tally, rng = Tally(), random.Random(seed)
    for case in range(cases):
        made = drawn(rng)
        other = made.shuffled(rng)
        wanted = search(made.kind, made.text()).count
        failed = tally.failed
        tally.expect(f"problem {case}", count(made.kind, made.text()), wanted)
        tally.expect(f"problem {case}, shuffled", count(made.kind, other.text()), wanted)
        if made.kind < 3:
            tally.expect(f"problem {case}, for dlx{made.kind + 1}", count(made.kind + 1, made.text()), wanted)
        if tally.failed > failed:
            with tempfile.NamedTemporaryFile(prefix=f"dlx{made.kind}-", suffix=".dlx", delete=False) as file:
                file.write(made.text())
            print(f"problem {case} is in {file.name}", flush=True)
    return tally.end()


sys.exit(main())
