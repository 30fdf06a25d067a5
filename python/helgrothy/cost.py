"""The solution whose options cost least in all: by all ways that there are, of which the first that proves it ends it.

dlx3 searches by bounds that are narrowed (`bounds`). Where that takes more than a moment, the engines that the path has
are asked (`optimisers`), and where it takes more than a second, prices of the items (`prices`) and a sweep over states
(`states`) have turns: prices may show that the best solution so far is least, and the sweep finds one that is. Each way
takes over the cheapest solution that any has found. Dominoes on 8 by 8 with random costs took dlx3 five seconds and the
sweep a thirtieth of one; 2,000 pairings of flights took cbc less than a second, where dlx3 alone had no solution in 20.

What an engine calls a solution is one where dlxcheck judges it to be one, and what it costs is added up here. That none
costs less is what it reports, and no proof: for a while the other ways may prove it, or find that it isn't so. Where
it reports that there is none, cadical is asked beside them for a proof, which dlx-none judges.
"""

from __future__ import annotations

import math
import os
import time
from collections.abc import Callable, Sequence
from contextlib import closing, suppress
from fractions import Fraction
from typing import Any, Generic, TypeVar, Union

from ._reason import optimisers, proofs, sat_solver
from ._reason.bounds import Bounds
from ._reason.optimisers import Optimiser
from ._reason.prices import Prices
from ._reason.sat_solver import Engine, NoAnswer
from ._reason.states import Sweep
from ._run.programs import Run
from ._run.report import Hear, unheard
from ._run.solution import Solution, Source
from ._run.wire import OfNumbers
from ._text.amounts import A_NUMBER, is_number, spelled
from .errors import OutOfTime, ProgramFailed, ProgramNotFound, TableFault
from .problem import Problem

__all__ = ["Cost", "Least", "NotLeast", "least", "read"]

Option = TypeVar("Option", bound=Any)
Cost = Union[int, float, Fraction]

# dlx3 is alone for so many seconds of a processor, or by the clock where it has had less; then prices and the sweep
# have turns of so many seconds.
_ALONE_SECONDS, _MOST_ALONE, _TURN_SECONDS = 1.0, 10.0, 0.3
# By the clock, it is alone for so long before the first engine is asked, and before each other one.
_ENGINE_SECONDS = 0.05
# What goes on beside dlx3 is looked at so often.
_LOOK_SECONDS = 0.05
# Without seconds of its own it ends after so many where a solution was found.
MOST_SECONDS = sat_solver.MOST_SECONDS
# To write the problem for an engine may take so long.
_MOST_WRITING = 8.0
# Where an engine reports that there is no solution, the program may show it for so many seconds, and for as long as a
# proof of it is at work.
_NONE_SECONDS = 2.0
# Where it reports that none costs less, the other ways may prove it for as long as all took so far, within these.
_PROOF_SECONDS, _LEAST_PROOF_SECONDS = 1.0, 0.2
# Of the time, what is spent on judging what engines call solutions.
_JUDGING_SHARE = 0.2
# After so many seconds without a solution a line says which engine may find one.
_LONG_SECONDS = 2.0


class Least(Solution[Option]):
    """The solution of least cost.

    cost: that of its options together. is_proved: whether it was shown here that none costs less. by: what showed it,
    `dlx3`, or the module `states` or `prices`; or the engine that reports so, `clasp`, `highs`, `cbc` or `glpsol`; or
    what found the solution, where the time was over.
    """

    __slots__ = ("by", "cost", "is_proved")

    by: str
    cost: Fraction
    is_proved: bool

    def __init__(self, source: Source, numbers: Sequence[int], cost: Fraction, by: str) -> None:
        super().__init__(source, numbers)
        self.cost = cost
        self.by = by
        self.is_proved = False

    def __getstate__(self) -> dict[str, Any]:
        return {**super().__getstate__(), "cost": self.cost, "by": self.by, "is_proved": self.is_proved}

    def __setstate__(self, state: dict[str, Any]) -> None:
        super().__setstate__(state)
        self.cost = state["cost"]
        self.by = state["by"]
        self.is_proved = state["is_proved"]


class NotLeast(OutOfTime):
    """The time was over before a solution was proved to be least. best: the cheapest one that was found, if any was."""

    best: Least[Any] | None

    def __init__(self, best: Least[Any] | None) -> None:
        super().__init__("the time was over before a proof that no solution costs less")
        self.best = best
        self.found = 0 if best is None else 1


def read(text: str, options: int) -> list[Fraction]:
    """The costs of so many options: a number for each, in their order, with white space between; a line that begins
    with a bar is a comment. Raises `TableFault`."""
    costs: list[Fraction] = []
    number = 0
    for number, line in enumerate(text.split("\n"), 1):
        for word in [] if line.lstrip().startswith("|") else line.split():
            if not is_number(word):
                raise TableFault(number, word[:60], f"no cost; one is {A_NUMBER}")
            costs.append(Fraction(word))
            if len(costs) > options:
                raise TableFault(number, word, f"a cost too many: the problem has {options} options")
    if len(costs) < options:
        raise TableFault(number, "", f"{len(costs)} costs, and the problem has {options} options")
    return costs


def least(
    problem: Problem[Option],
    costs: Sequence[Cost],
    seconds: float | None = None,
    say: Callable[[str], object] = lambda line: None,
    hint: Callable[[str], bool] = lambda line: False,
    report: Hear = unheard,
) -> Least[Option] | None:
    """The solution of least cost, as dlxcheck judges it to be one; None where there is no solution.

    costs: of each option in their order. say and hint: as `engines.solve` takes them; where a proof shows that there is
    no solution `say` gets that, too. report: gets what is at work, and the least cost so far. Raises `NotLeast`, also
    without seconds where `MOST_SECONDS` are over and a solution was found; `ValueError` for another number of costs;
    and `engines.Claimed` where an engine reports that there is no solution, and neither the program shows that soon nor
    a proof.
    """
    deadline = None if seconds is None else time.monotonic() + seconds
    if len(costs) != len(problem.options):
        raise ValueError(f"{len(costs)} costs, and the problem has {len(problem.options)} options")
    exact = [Fraction(str(cost)) if isinstance(cost, float) else Fraction(cost) for cost in costs]
    unit = math.lcm(1, *(cost.denominator for cost in exact))
    with closing(_Search(problem, exact, [int(cost * unit) for cost in exact], deadline, say, hint, report)) as search:
        return search.least()


class _Over(Exception):
    """It is known which solution costs least. by: who showed or reports it. is_proved: whether it was shown."""

    def __init__(self, by: str, is_proved: bool = True) -> None:
        self.by = by
        self.is_proved = is_proved


class _Proved(Exception):
    """It is proved that there is no solution."""


class _Search(Generic[Option]):
    """All ways, and the cheapest solution so far.

    best: what that costs. floor: what each solution costs at least, in parts, by the prices so far.
    """

    def __init__(
        self,
        problem: Problem[Option],
        exact: Sequence[Fraction],
        costs: Sequence[int],
        deadline: float | None,
        say: Callable[[str], object],
        hint: Callable[[str], bool],
        report: Hear,
    ) -> None:
        self._problem = problem
        self._reader = OfNumbers(problem)
        self._exact = exact
        self._costs = costs
        self._deadline = deadline
        self._say = say
        self._begun = self._looked = time.monotonic()
        self._reasoning = _Reasoning(problem, costs)
        self._engines = _Engines(problem, costs, deadline, say, hint)
        self._report = report
        self._found: Least[Option] | None = None
        # Whether dlxcheck has judged it to be a solution.
        self._is_judged = False
        self.best: int | None = None

    @property
    def prices(self) -> Prices:
        return self._reasoning.prices

    @property
    def floor(self) -> int | None:
        return self._reasoning.floor

    def close(self) -> None:
        """Leaves no engine behind."""
        self._engines.close()

    def least(self) -> Least[Option] | None:
        """Raises `NotLeast` and `Claimed`."""
        try:
            by, is_proved = "dlx3", True
            try:
                with closing(Bounds(self._problem, self._costs, self._deadline, self).solutions()) as solutions:
                    for numbers in solutions:
                        self._set(numbers, "dlx3")
                        self.look()
            except _Over as over:
                by, is_proved = over.by, over.is_proved
        except _Proved:
            self._say(proofs.PROVED)
            return None
        except OutOfTime:
            self._hear(is_last=True)
            self._check()
            claim = self._engines.claim
            if claim is not None and claim.cost is None:
                claim.end(self._problem)
            self._engines.help(self.best, self._say)
            raise NotLeast(self._found) from None
        self._check()
        if self._found is not None:
            self._found.by, self._found.is_proved = by, is_proved
        return self._found

    def look(self, run: Run | None = None) -> None:
        """The turns of all that goes on beside dlx3. Raises `_Over`, `_Proved`, `Claimed` and `OutOfTime`."""
        now = time.monotonic()
        if now - self._looked < _LOOK_SECONDS:
            return
        self._hear()
        self._report(at_work=["dlx3", *self._engines.names])
        claim = self._engines.claim
        if claim is not None and claim.left(now) <= 0:
            claim.end(self._problem)
        swept = self._reasoning.look(self.best, run, None if claim is None else claim.left(now))
        if swept is not None:
            self._set(swept, "states")
            raise _Over("states")
        if self._deadline is None and self.best is not None and now - self._begun > MOST_SECONDS:
            raise OutOfTime("no proof came in time")
        self._looked = time.monotonic()

    def _hear(self, is_last: bool = False) -> None:
        """Takes what engines have found."""
        found = self._engines.hear(self.best, is_last)
        if found is not None:
            self._set(found.numbers or [], found.name, is_judged=True)

    def _set(self, numbers: Sequence[int], by: str, is_judged: bool = False) -> None:
        self.best = sum(self._costs[number] for number in numbers)
        cost = sum((self._exact[number] for number in numbers), Fraction(0))
        self._found, self._is_judged = Least(self._reader, numbers, cost, by), is_judged
        self._report(best=spelled(cost))
        self._engines.doubt(self.best)

    def _check(self) -> None:
        """Raises `ProgramFailed` where the best solution is none."""
        if self._found is not None and not self._is_judged and self._problem.check([self._found]) != [True]:
            raise ProgramFailed(self._found.by, 0, "its answer is no solution, as dlxcheck judges it")


class _Reasoning:
    """Prices and a sweep, which have turns beside dlx3."""

    def __init__(self, problem: Problem[Any], costs: Sequence[int]) -> None:
        self._problem = problem
        self._costs = costs
        self._begun, self._worked = time.monotonic(), sum(os.times()[:4])
        self._sweep: Sweep | None = None
        self._prices: Prices | None = None
        self.floor: int | None = None

    @property
    def prices(self) -> Prices:
        if self._prices is None:
            self._prices = Prices(self._problem, self._costs)
        return self._prices

    def look(self, best: int | None, run: Run | None, left: float | None) -> list[int] | None:
        """A turn where it is time for it; what the sweep found where it has ended. Raises `_Over`.

        left: the seconds to show what an engine reports, in which prices have a turn before it is time.
        """
        if self._sweep is None:
            worked = sum(os.times()[:4]) - self._worked + (0.0 if run is None else run.worked())
            if worked >= _ALONE_SECONDS or time.monotonic() - self._begun >= _MOST_ALONE:
                self._sweep = Sweep(self._problem, self._costs)
        if best is not None and (self._sweep is not None or left is not None):
            if self.prices.show(best, _TURN_SECONDS if left is None else min(left, _TURN_SECONDS)):
                raise _Over("prices")
            self.floor = self.prices.surpluses()[1]
        if self._sweep is not None and left is None and not self._sweep.is_over:
            self._sweep.go_on(_TURN_SECONDS)
        return None if self._sweep is None else self._sweep.numbers


# ---- by engines


class _Claim:
    """What an engine reports: that none costs less than its solution, or that there is none, which may be proved."""

    def __init__(self, engine: Optimiser, begun: float, problem: Problem[Any], seconds: float) -> None:
        """seconds: what is left for a proof."""
        self.name = engine.name
        self.cost = None if engine.is_none else engine.cost
        now = time.monotonic()
        proof = min(max(now - begun, _LEAST_PROOF_SECONDS), _PROOF_SECONDS)
        self._until = now + (_NONE_SECONDS if self.cost is None else proof)
        self._proving: proofs.Proving | None = None
        if self.cost is None and proofs.are_possible():
            with suppress(OSError, ProgramNotFound):
                self._proving = proofs.Proving(problem, seconds)

    @property
    def prover(self) -> list[str]:
        """Who is at work on a proof."""
        return [] if self._proving is None else [self._proving.name]

    def left(self, now: float) -> float:
        """How long the others have to show it; nothing or less where the time is over. Raises `_Proved`."""
        left = self._until - now
        is_proved = False if self._proving is None else self._proving.verdict()
        if is_proved:
            raise _Proved
        return max(left, _LOOK_SECONDS) if is_proved is None else left

    def close(self) -> None:
        """Leaves nothing of a proof behind."""
        if self._proving is not None:
            self._proving.__exit__()

    def end(self, problem: Problem[Any]) -> None:
        """Raises `Claimed`, and `_Over`."""
        if self.cost is None:
            from .engines import Claimed

            raise Claimed(self.name, f"dlx{problem.kind}")
        raise _Over(self.name, is_proved=False)


class _Engines:
    """The engines beside dlx3. claim: what one reports that isn't known to be wrong."""

    def __init__(
        self,
        problem: Problem[Any],
        costs: Sequence[int],
        deadline: float | None,
        say: Callable[[str], object],
        hint: Callable[[str], bool],
    ) -> None:
        self._problem = problem
        self._costs = costs
        self._say = say
        self._hint = hint
        self._begun = self._last = time.monotonic()
        self._has_deadline = deadline is not None
        self._deadline = self._begun + sat_solver.MOST_SECONDS if deadline is None else deadline
        self._waiting: list[Engine] | None = None
        self._at_work: list[Optimiser] = []
        self._has_any = self._is_helped = self._is_shown = False
        # When a solution was judged last, and how long that took.
        self._judged, self._judging = 0.0, 0.0
        self.claim: _Claim | None = None

    @property
    def names(self) -> list[str]:
        """Those that are at work."""
        return [engine.name for engine in self._at_work] + ([] if self.claim is None else self.claim.prover)

    def close(self) -> None:
        for engine in self._at_work:
            engine.end()
        if self.claim is not None:
            self.claim.close()

    def hear(self, best: int | None, is_last: bool) -> Optimiser | None:
        """Begins one where it is time for it, and takes what all have said.

        Gives the one with the cheapest solution, if that is cheaper than the best one and dlxcheck judges it to be one.
        """
        now = time.monotonic()
        if not is_last:
            self._begin(now)
            self.help(best)
        cheapest: Optimiser | None = None
        for engine in list(self._at_work):
            try:
                engine.hear()
                if best is None and not self._has_deadline and now > self._deadline and not engine.is_over:
                    raise NoAnswer.in_time(engine.name)
                is_cheaper = engine.cost is not None and (best is None or engine.cost < best)
                if is_cheaper and self._may_judge(engine, is_last):
                    self._judge(engine)
                    cheapest, best = engine, engine.cost
                if engine.is_over:
                    self._end(engine, best)
            except NoAnswer as error:
                self._drop(engine)
                self._say(f"{error}; dlx3 goes on")
        return cheapest

    def doubt(self, best: int) -> None:
        """Drops a claim that a solution of this cost shows to be wrong."""
        claim = self.claim
        if claim is not None and (claim.cost is None or claim.cost > best):
            claim.close()
            self.claim = None
            self._say(f"{_wrong(claim.name, claim.cost is None)}; dlx3 goes on")

    def _begin(self, now: float) -> None:
        """Begins one, where it is time for it."""
        if now - self._last < _ENGINE_SECONDS:
            return
        if self._waiting is None:
            self._waiting = optimisers.found(self._costs)
            self._has_any = bool(self._waiting)
        if self._waiting:
            engine, *self._waiting = self._waiting
            left = self._deadline - now
            if sat_solver.writing_seconds(self._problem) > min(left / 2, _MOST_WRITING):
                self._say(f"the problem is too large for {engine.name} here; dlx3 goes on")
            else:
                self._at_work.append(Optimiser(engine, self._problem, self._costs, left))
            self._last = time.monotonic()

    def _may_judge(self, engine: Optimiser, is_last: bool) -> bool:
        """Whether it is time to judge a solution, of which an engine may find many."""
        return is_last or engine.is_over or time.monotonic() - self._judged > self._judging / _JUDGING_SHARE

    def _judge(self, engine: Optimiser) -> None:
        begun = time.monotonic()
        sat_solver.judge(engine.name, self._problem, [self._problem.options[at] for at in engine.numbers or []])
        self._judged = time.monotonic()
        self._judging = self._judged - begun

    def _end(self, engine: Optimiser, best: int | None) -> None:
        """Ends one that has said all, and takes what it reports. Raises `NoAnswer`."""
        if (engine.is_none and best is not None) or (engine.is_least and engine.cost != best):
            raise NoAnswer(_wrong(engine.name, engine.is_none))
        if engine.failure():
            raise NoAnswer(engine.failure())
        self._drop(engine)
        if best is not None:
            self.doubt(best)
        if self.claim is None and (engine.is_least or engine.is_none):
            left = self._deadline - time.monotonic() if self._has_deadline else proofs.MOST_SECONDS
            self.claim = _Claim(engine, self._begun, self._problem, left)

    def _drop(self, engine: Optimiser) -> None:
        engine.end()
        self._at_work.remove(engine)

    def help(self, best: int | None, say: Callable[[str], object] | None = None) -> None:
        """Says which engines may find a solution, where the path has none: once, soon, or else at the end."""
        if best is None and not self._has_any and time.monotonic() - self._begun > _LONG_SECONDS:
            line = sat_solver.missing("clasp", "cbc")
            if say is not None and not self._is_shown:
                say(line)
            elif not self._is_helped:
                self._is_helped = True
                self._is_shown = self._hint(line)


def _wrong(name: str, is_none: bool) -> str:
    what = "there is no solution, and there is one" if is_none else "none costs less than its solution, and one does"
    return f"{name} reports that {what}"
