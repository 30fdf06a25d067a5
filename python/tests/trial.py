#!/usr/bin/env python3
"""trial.py CASES SEED: random problems of all kinds, over items of all kinds, against a search of its own.

The solutions have to be those that trying all sets of options finds, known by the options as they were given; counts,
verdicts on right and wrong solutions, and choices of none have to agree with them. Of texts with faults the first
fault has to be the one that dlxcheck reports. Each tenth problem is exported, too, and counted by clasp, where clasp and
gringo are installed. The last line is `N passed, M failed`.
"""

import itertools
import os
import random
import shutil
import subprocess
import sys
import tempfile
import traceback
import warnings

sys.path.insert(0, os.path.dirname(os.path.dirname(os.path.abspath(__file__))))

from test_tools import count  # noqa: E402

from helgrothy import Null, Problem, export, lint, why  # noqa: E402
from helgrothy._reason.sums import search  # noqa: E402
from helgrothy._run import programs  # noqa: E402

CLASP = bool(shutil.which("clasp") and shutil.which("gringo"))
NAMES = ["a", "b", (1, 2), "two words", 7, 2.5, frozenset("f"), "null", "x:y", "|", "ä" * 20, None]
COLOURS = ["red", "a long colour", 1, (0,), "::"]


def problem_of(rng):
    """Items with their bounds, secondary items and options, as they are given to `Problem`."""
    names = rng.sample(NAMES, len(NAMES))
    kind = rng.choice([1, 2, 3])
    primary = {name: None for name in names[: rng.randint(1, 5)]}
    secondary = names[len(primary) : len(primary) + rng.randint(0, 4)]
    if kind == 3:
        for name in primary:
            low = rng.randint(0, 2)
            primary[name] = rng.choice([None, 1, 2, (low, max(low, rng.randint(1, 3)))])
    options = []
    for _ in range(rng.randint(0, 10)):
        uses = [name for name in [*primary, *secondary] if rng.random() < 0.4]
        rng.shuffle(uses)
        if rng.random() < 0.2 and options:
            uses = list(options[-1])
            turn = rng.randint(0, len(uses))
            uses = uses[turn:] + uses[:turn]
        if kind > 1 and rng.random() < 0.7:
            options.append({u: rng.choice(COLOURS) if u in secondary and rng.random() < 0.7 else None for u in uses})
        else:
            options.append(rng.choice([tuple, list, dict.fromkeys])(uses))
    return primary, secondary, options


def is_cover(primary, options):
    """Whether a set of options is a cover, by the definition."""
    held, colours = dict.fromkeys(primary, 0), {}
    for option in options:
        for item in option:
            if item in held:
                held[item] += 1
                continue
            colour = option[item] if isinstance(option, dict) else None
            if item in colours and (colour is None or colours[item] != colour):
                return False
            colours[item] = colour
    for item, bounds in primary.items():
        low, high = (1, 1) if bounds is None else (bounds, bounds) if isinstance(bounds, int) else bounds
        if not low <= held[item] <= high:
            return False
    return True


def covers(primary, options):
    """All covers, each as the positions of its options."""
    usable = [k for k, option in enumerate(options) if any(item in primary for item in option)]
    return {
        chosen
        for size in range(len(usable) + 1)
        for chosen in itertools.combinations(usable, size)
        if is_cover(primary, [options[k] for k in chosen])
    }


def is_right(rng, with_exports):
    primary, secondary, options = problem_of(rng)
    wanted = covers(primary, options)
    problem = Problem(primary, secondary, options)
    place = {id(option): k for k, option in enumerate(options)}
    found = list(problem.solve())
    chosen = [tuple(sorted(place[id(option)] for option in solution)) for solution in found]
    assert len(set(chosen)) == len(chosen) and set(chosen) == wanted, "the solutions differ"
    assert problem.count() == len(wanted), "the count differs"
    with_nulls = list(problem.solve(nulls=True))
    without = [[choice for choice in solution if not isinstance(choice, Null)] for solution in with_nulls]
    assert without == found, "choices of none change the solutions"
    limit, spacing = rng.randint(1, 4), rng.randint(1, 3)
    assert list(problem.solve(limit, spacing)) == found[:limit][spacing - 1 :: spacing], "limit or spacing"
    usable = [option for option in options if any(item in primary for item in option)]
    others = [[option for option in usable if rng.random() < 0.4] for _ in range(3)]
    truth = [True] * (2 * len(found)) + [is_cover(primary, chosen) for chosen in others]
    assert problem.check([*found, *with_nulls, *others]) == truth, "the verdicts differ"
    again = Problem.parse(problem.text)
    assert again.count() == len(wanted), "the text read again"
    assert not (wanted and search(problem, 0.05)), "a proof by sums where there is a solution"
    conflict = why.find(problem, 5)
    assert (conflict is None) == bool(wanted), "why"
    if conflict is not None:
        freed = {i: (0, 3) if b is None else b for i, b in primary.items()}
        assert conflict.items and set(conflict.items) <= set(freed), "why names items"
    if with_exports:
        # clasp reads no integer programs.
        for name in sorted(set(export.FORMATS) - {"lp"}):
            write = export.FORMATS[name]
            assert count("".join(f"{line}\n" for line in write(problem)), name) == len(wanted), f"export {name}"


def text_of(rng):
    """A text that often has faults."""
    kind = rng.choice([1, 2, 3])
    words = ["A", "B", "C", "|", "x", "y", "2|D", "1:2|E", "0|F", "A:r", "x:r", "x:", "x:123456789", "n" * 33, "q", "||z"]
    lines = []
    for _ in range(rng.randint(0, 5)):
        line = [rng.choice(words[:7] if rng.random() < 0.8 else words) for _ in range(rng.randint(0, 4))]
        lines.append(rng.choice(["", " "]) + rng.choice([" ", "\t", "\v"]).join(line) + rng.choice(["", "", "\r", "\0"][:3]))
    text = "\n".join(["A B C | x y", *lines] if rng.random() < 0.7 else lines) + rng.choice(["", "\n"])
    return text.encode(), kind


def has_right_fault(rng, folder):
    text, kind = text_of(rng)
    path = os.path.join(folder, "p.dlx")
    with open(path, "wb") as file:
        file.write(text)
    done = subprocess.run([programs.find("dlxcheck"), path, str(kind)], stdin=subprocess.DEVNULL, capture_output=True)
    faults = [remark for remark in lint.lint(text, kind, 0.05) if remark.is_fault]
    first = f"Line {faults[0].line}: {faults[0].text.partition(' (')[0]}." if faults else ""
    assert done.stderr.decode().strip() == first, f"{text!r}: {done.stderr!r} and {first!r}"


def main():
    warnings.simplefilter("ignore")
    cases, seed = int(sys.argv[1]), int(sys.argv[2])
    failed = 0
    with tempfile.TemporaryDirectory() as folder:
        for case in range(cases):
            rng = random.Random(f"{seed} {case}")
            try:
                is_right(rng, CLASP and case % 10 == 0)
                has_right_fault(rng, folder)
            except Exception:
                failed += 1
                print(f"case {case} of seed {seed}:")
                traceback.print_exc(file=sys.stdout)
    print(f"{cases - failed} passed, {failed} failed")
    return failed > 0


if __name__ == "__main__":
    sys.exit(main())
