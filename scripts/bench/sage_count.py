"""sage -python sage_count.py PROBLEM: counts the solutions by Sage's dancing links, and tells the seconds of CPU time.

The problem has no colours and no bounds. Sage has no secondary items: each gets an option that holds it alone, so
that it is left out in one way. Sage's own start isn't in the time; reading is, as it is in ours.
"""

import sys
import time

from sage.combinat.matrices.dancing_links import dlx_solver


def rows_of(path):
    """The options as lists of numbers of items, and whether each primary item has one."""
    with open(path) as file:
        lines = [line.split() for line in file if line.strip() and not line.lstrip().startswith("|")]
    items, bar = lines[0], len(lines[0])
    if "|" in items:
        bar = items.index("|")
        items = items[:bar] + items[bar + 1 :]
    number = {name: i for i, name in enumerate(items)}
    rows = [[number[name] for name in option] for option in lines[1:]]
    held = {i for row in rows for i in row}
    return rows + [[i] for i in range(bar, len(items))], all(i in held for i in range(bar))


def count(path):
    rows, held = rows_of(path)
    if not held:
        return 0
    solver, found = dlx_solver(rows), 0
    while solver.search() == 1:
        found += 1
    return found


start = time.process_time()
print("Solutions:", count(sys.argv[1]))
print(f"Seconds: {time.process_time() - start:.3f}")
