#!/usr/bin/env python3
"""known.py [NAME..]: dlx-count on problems whose numbers of solutions are known from the literature.

Each is counted as it is made, and with its items and options shuffled. With words only those whose names begin so. The
last line is `N passed, M failed`.
"""
import random
import sys

from problems import known
from running import Tally, count


def main() -> int:
    tally = Tally()
    for name, wanted, make in known():
        if sys.argv[1:] and not name.startswith(tuple(sys.argv[1:])):
            continue
        made = make()
        tally.expect(name, count(made.kind, made.text()), wanted)
        shuffled = made.shuffled(random.Random(name))
        tally.expect(f"{name}, shuffled", count(made.kind, shuffled.text()), wanted)
    return tally.end()


sys.exit(main())
