#!/usr/bin/env python3
"""enough.py PROGRAM [SEED] [PROBLEMS]: whether the clauses of small problems are enough.

PROGRAM is dlx-none, and cadical has to be installed. Random problems of all three kinds are made, with bounds, colours
and items that no option holds. Of each that has no cover cadical has to say that its clauses can't all be true, and the
judge has to accept its proof. Of each that has one cadical has to find values, and no proof is accepted, also not that
of another problem. Whether a problem has a cover is found by trying all sets of its options.

That each cover makes the clauses true is proved. That nothing else does is only tested, here, outside the gate.
"""

from __future__ import annotations

import random
import subprocess
import sys
import tempfile
from pathlib import Path
from typing import NamedTuple

Use = tuple[str, str]


class Made(NamedTuple):
    kind: int
    bounds: dict[str, tuple[int, int]]
    secondary: list[str]
    options: list[list[Use]]

    def text(self) -> str:
        items = [name if pair == (1, 1) else f"{pair[0]}:{pair[1]}|{name}" for name, pair in self.bounds.items()]
        lines = [" ".join(items + ["|"] * bool(self.secondary) + self.secondary)]
        lines += [" ".join(name + colour for name, colour in option) for option in self.options]
        return "\n".join(lines) + "\n"

    def is_cover(self, chosen: list[list[Use]]) -> bool:
        for name, (low, high) in self.bounds.items():
            if not low <= sum(any(it == name for it, _ in option) for option in chosen) <= high:
                return False
        for name in self.secondary:
            colours = [colour for option in chosen for it, colour in option if it == name]
            if len(colours) > 1 and ("" in colours or len(set(colours)) > 1):
                return False
        return True

    def has_cover(self) -> bool:
        sets = range(1 << len(self.options))
        return any(self.is_cover([it for k, it in enumerate(self.options) if mask >> k & 1]) for mask in sets)


def made(rng: random.Random) -> Made:
    kind = rng.randint(1, 3)
    bounds = {}
    for k in range(rng.randint(1, 5)):
        low = rng.randint(0, 4) if kind == 3 and rng.random() < 0.6 else None
        bounds[f"p{k}"] = (1, 1) if low is None else (low, max(1, low + rng.randint(0, 3)))
    secondary = [f"s{k}" for k in range(rng.randint(0, 3))]
    options = []
    for _ in range(rng.randint(0, 10)):
        held = rng.sample(list(bounds), rng.randint(1, min(len(bounds), 3)))
        option = [(name, "") for name in held]
        for name in secondary:
            if rng.random() < 0.4:
                option.append((name, ":" + rng.choice("ABC") if kind > 1 and rng.random() < 0.75 else ""))
        rng.shuffle(option)
        options.append(option)
    return Made(kind, bounds, secondary, options)


def main() -> None:
    if not 2 <= len(sys.argv) <= 4:
        sys.exit(__doc__)
    program, seed, wanted = sys.argv[1], *(int(it) for it in [*sys.argv[2:], *["1", "200"][len(sys.argv) - 2 :]])
    rng, without, others, other = random.Random(seed), 0, 0, b""
    with tempfile.TemporaryDirectory() as name:
        problem, clauses, proof = (Path(name) / it for it in ("problem", "clauses.cnf", "proof"))
        while without < wanted:
            it = made(rng)
            covered = it.has_cover()
            if covered and others > without:
                continue
            problem.write_text(it.text())
            words = [program, str(it.kind), str(problem)]
            clauses.write_bytes(subprocess.run(words, capture_output=True, check=True).stdout)
            status = subprocess.run(["cadical", "-q", str(clauses), str(proof)], capture_output=True).returncode
            assert status == (10 if covered else 20), (status, it.text())
            if covered:
                others += 1
                proof.write_bytes(other)
            else:
                without, other = without + 1, proof.read_bytes()
            ran = subprocess.run([*words, str(proof)], capture_output=True)
            assert (ran.returncode == 0, ran.stderr == b"No solution.\n") == (not covered, not covered), it.text()
    print(f"{without} problems without a cover, each refuted; {others} with one, none refuted")


if __name__ == "__main__":
    main()
