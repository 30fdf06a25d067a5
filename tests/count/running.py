"""Runs of dlx-count and of the solvers."""

from __future__ import annotations

import re
import subprocess
import sys
from dataclasses import dataclass
from pathlib import Path

sys.path.insert(0, str(Path(__file__).resolve().parents[2] / "python"))

from helgrothy._run import programs  # noqa: E402
from helgrothy._run.programs import read_number  # noqa: E402

LAST_LINE = re.compile(r"Altogether (\d+) solutions?\.\n\Z")
# What doesn't end in so many seconds never ends, whatever else the machine does.
HANG = 1200


@dataclass(frozen=True)
class Said:
    """A run's status and messages, and the number of solutions in its last line."""

    status: int
    messages: str

    @property
    def count(self) -> int | None:
        found = LAST_LINE.search(self.messages)
        return read_number(found.group(1)) if found and self.status == 0 else None

    def __str__(self) -> str:
        return f"status {self.status}, {self.messages.strip()[:80]!r}"


def run(program: str, words: list[str], text: bytes) -> Said:
    done = subprocess.run([programs.find(program), *words], input=text, capture_output=True, timeout=HANG)
    return Said(done.returncode, done.stderr.decode())


def count(kind: int, text: bytes, *words: str) -> Said:
    """What dlx-count says of a problem."""
    return run("dlx-count", [str(kind), *words], text)


def search(kind: int, text: bytes) -> Said:
    """What the solver says of it."""
    return run(f"dlx{kind}", [], text)


class Tally:
    """Tells what goes wrong, each in a line, and how much did at the end."""

    def __init__(self) -> None:
        self.passed = self.failed = 0

    def expect(self, what: str, said: Said, wanted: int | None) -> None:
        if said.count == wanted is not None:
            self.passed += 1
        else:
            self.failed += 1
            print(f"{what}: {said}, and not {wanted}", flush=True)

    def end(self) -> int:
        print(f"{self.passed} passed, {self.failed} failed")
        return 1 if self.failed else 0
