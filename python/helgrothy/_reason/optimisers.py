"""Engines that are asked which solution costs least, where the path has them: clasp, HiGHS, cbc and glpsol.

Clasp gets sums and says each solution that is cheaper than all before. The others get an integer program in the LP
format and say the best one at their end: a linear bound, which the programs and clasp lack, shows at once what costs
least where flights are to be shared among crews.

HiGHS and cbc know a format by the name of its file. So an engine begins in a folder of its own, in which a link of the
right name leads to its input, and what it may write beside its answer goes with it. HiGHS and glpsol write the answer
to another place than the log of their work, which would come amid it.
"""

from __future__ import annotations

import os
import shutil
import tempfile
from collections.abc import Iterable, Iterator, Sequence
from typing import Any

from .. import answers, export
from .._run import programs
from .._text.shown import bytes_of, text_of
from ..errors import AnswerFault
from ..problem import Problem
from . import sat_solver
from .sat_solver import Engine, Heard, NoAnswer

NAMES = ("clasp", "highs", "cbc", "glpsol")
# They reckon with numbers of 32 bits, or with ones that aren't exact.
_MOST_SUM = (1 << 31) - 1
# Where its problem and its options are in the folder of an engine.
_PROBLEM, _OPTIONS = "problem.lp", "options"
_LINKED = "/dev/stdin"
# An engine whose answer is what it writes to its third file.
_ANSWER, _APART = "/dev/fd/3", ["/bin/sh", "-c", 'exec "$@" 3>&1 > /dev/null', "sh"]
# OpenBLAS begins a thread for each processor, and where a limit of memory leaves no room for them cbc never ends.
_ONE_THREAD = ["/bin/sh", "-c", 'OPENBLAS_NUM_THREADS=1 exec "$@"', "sh"]
# Of its time, after which an engine says what it has found by then.
_SHARE = 0.9


def found(costs: Sequence[int]) -> list[Engine]:
    """The engines on the path that take these costs, where there is a dlxcheck that can judge what they say."""
    if not costs or sum(abs(cost) for cost in costs) > _MOST_SUM or not programs.has("dlxcheck"):
        return []
    paths = [(name, sat_solver.path_of(name)) for name in NAMES]
    return [Engine(name, path) for name, path in paths if path is not None]


class Optimiser:
    """An engine at work. `hear` is to be called some times a second.

    numbers: of its cheapest solution so far, which isn't judged. cost: what that costs. is_least: whether it reports
    that none costs less; is_none: that there is no solution. is_over: whether it says nothing any more.
    """

    def __init__(self, engine: Engine, problem: Problem[Any], costs: Sequence[int], seconds: float) -> None:
        """seconds: what it may take, by the clock. It is asked to end some time before."""
        self.name = engine.name
        self.numbers: list[int] | None = None
        self.cost: int | None = None
        self.is_least = self.is_none = self.is_over = False
        self._costs = costs
        self._seconds = seconds
        self._reader = answers.reader_of(engine.name, problem)
        self._lines = 0
        self._folder = tempfile.mkdtemp(prefix="helgrothy-")
        try:
            text = _opb(problem, costs) if engine.name == "clasp" else export.lp(problem, costs)
            command = _command(engine, self._folder, seconds * _SHARE)
            lines = (bytes_of(f"{line}\n") for line in text)
            self._heard = Heard(engine.name, command, problem, lines, self._folder)
        except BaseException:
            self._drop_folder()
            raise

    def end(self) -> None:
        """Ends the engine, and leaves nothing of it."""
        self.is_over = True
        self._heard.__exit__()
        self._drop_folder()

    def _drop_folder(self) -> None:
        shutil.rmtree(self._folder, ignore_errors=True)

    def hear(self) -> None:
        """Takes what it has said by now. Raises `NoAnswer`."""
        try:
            for line in self._heard.lines():
                self._lines += 1
                self._take(self._reader.read(self._lines, text_of(line).rstrip()))
                if self._reader.is_said:
                    break
            self.is_over = self._heard.is_over or self._reader.is_said
            if self.is_over:
                self._take(self._reader.end())
        except AnswerFault as fault:
            raise NoAnswer(f"{self.name} gave no answer ({self._heard.messages() or fault})") from None
        if self.is_over:
            self.is_least, self.is_none = self._reader.is_least, self._reader.is_none

    def failure(self) -> str:
        """What to say of one that has ended before its time without a report, or nothing."""
        # The others are asked to end in time.
        if self.is_least or self.is_none or self.name != "clasp":
            return ""
        message = self._heard.messages()
        return f"clasp ended before it knew which costs least{message and f' ({message})'}"

    def _take(self, answers: Iterable[list[int]]) -> None:
        for numbers in answers:
            cost = sum(self._costs[number] for number in numbers)
            if self.cost is None or cost < self.cost:
                self.numbers, self.cost = numbers, cost
                self._heard.found_better()


def _command(engine: Engine, folder: str, seconds: float) -> list[str]:
    """What has an engine print what it finds in so many seconds."""
    whole = str(max(int(seconds), 1))
    if engine.name == "clasp":
        return [engine.path, "-q0"]
    if engine.name == "glpsol":
        return [*_APART, engine.path, "--lp", _LINKED, "--tmlim", whole, "-w", _ANSWER]
    os.symlink(_LINKED, os.path.join(folder, _PROBLEM))
    if engine.name == "cbc":
        words = ["log", "0", "timeMode", "elapsed", "sec", whole, "solve", "solution", "-"]
        return [*_ONE_THREAD, engine.path, _PROBLEM, *words]
    with open(os.path.join(folder, _OPTIONS), "w", encoding="ascii") as file:
        file.write(f"time_limit = {whole}\nmip_rel_gap = 0\n")
    words = ["--model_file", _PROBLEM, "--options_file", _OPTIONS, "--solution_file", _ANSWER]
    return [*_APART, engine.path, *words]


def _opb(problem: Problem[Any], costs: Sequence[int]) -> Iterator[str]:
    lines = export.opb(problem)
    yield next(lines)
    yield next(lines)
    yield " ".join(["min:", *(f"{cost:+d} x{x}" for x, cost in enumerate(costs, 1)), ";"])
    yield from lines
