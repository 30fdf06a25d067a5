"""Why a problem has no solution: primary items that can't all be held as their bounds say.

First the bounds are counted, which proves most conflicts of mistaken data at once. Then the programs search and, where
one is on the path, cadical or clasp beside them. Items are let off one by one while there is still no solution: one
that is let off may be held less often than its bounds say, but not more often. What is left is a conflict. Each
question has a time limit, so an item of which it isn't known in time whether it can be let off stays in.

An engine is asked in turn with the programs, and named if the answer rests on its report. The problem is written once,
with a variable for each primary item by which it is dropped: `cadical` and `clasp` don't print an unsatisfiable core.

What is proved is said, too: dlx-none judges the weights by which sums show it, and a proof by cadical that the items
which an engine names can't all be held.
"""

from __future__ import annotations

import time
from collections.abc import Callable, Hashable, Iterator, Mapping, Sequence
from dataclasses import dataclass
from typing import Any

from . import engines
from ._reason import proofs, sat_solver
from ._reason.sums import Count, Sums
from ._run import refutation
from ._text.syntax import Bounds
from .errors import OutOfTime, ProgramFailed, ProgramNotFound
from .problem import Problem

__all__ = ["Conflict", "find"]

# The largest part of the whole time that one question may take, and the search for weights; and that of the matching.
_SHARE = 0.1
_COUNTED = 0.2
# That for the judgement of weights, and for a proof at the end, where there may be one.
_WEIGHING = 0.2
_PROVED = 0.2
# Who is asked what may be let off answers for so long first, and then for so many times longer again.
_FIRST_SECONDS = 0.1
_LONGER = 3
# What is said where weights prove it.
_WEIGHED = f"no solution, proved: {refutation.PROGRAM} has checked the sums"


@dataclass(frozen=True)
class Conflict:
    """Primary items that can't all be held.

    is_least: whether each one of them is needed for it; else for some the time was too short, or all of a class are
    named. sums: weights of items that prove it, where sums do. by: the program that found that there is no solution,
    where they don't. proof: that dlx-none has checked sums or a proof, as a line, where it has.
    """

    items: list[Hashable]
    is_least: bool
    sums: Sums | None = None
    by: str = ""
    proof: str = ""

    def lines(self, problem: Problem[Any], is_known: bool = False) -> Iterator[str]:
        """The conflict in words. is_known: whether it was said before that there is no solution, and what proves it."""
        yield " ".join(["can't all be held:", *map(problem.name, self.items)])
        if self.sums is not None:
            yield self.sums.text(problem.name)
        if self.proof and not is_known:
            yield self.proof
        if self.by in sat_solver.SOLVERS and self.proof != proofs.PROVED:
            what = "these conflict" if is_known or self.proof else "no solution"
            yield f"{what}, says {self.by}; dlx{problem.kind}, which would prove it, came to no end in the time"
        if self.is_least and len(self.items) > 1:
            yield "without any one of them the others can be held"
        elif not self.is_least and not (self.sums is not None and self.sums.is_whole):
            yield "perhaps fewer do: not all were tried to the end in the time"
        elif len(self.items) == 1:
            yield from self._too_few(problem)

    def _too_few(self, problem: Problem[Any]) -> Iterator[str]:
        """How many options the only item is in, where these are fewer than it asks for."""
        item = self.items[0]
        count, low = _held(problem)[item], problem.items[item].low
        if not count:
            yield "it is in no option"
        elif count < low:
            yield f"it is in {count} option{'' if count == 1 else 's'}, and to be held {low} times"


def find(
    problem: Problem[Any], seconds: float = 10.0, say: Callable[[str], object] = lambda line: None
) -> Conflict | None:
    """A conflict, as small as leaving out finds in so many seconds; None where there is a solution.

    say: gets a line that says what an engine did wrong. Raises `OutOfTime` where not even that is known in the time.
    """
    deadline = time.monotonic() + seconds
    short = next((item for item, count in _held(problem).items() if count < problem.items[item].low), None)
    if short is not None:
        return Conflict([short], True, proof=_weighed(problem, {short: 1}, seconds * _WEIGHING))
    count = Count(problem)
    found = count.by_matching(seconds * _COUNTED)
    last = deadline - seconds * _PROVED if proofs.are_possible() else deadline
    question = _Question(problem, last, seconds * _SHARE, say)
    if found is not None and found.is_whole:
        proof = _weighed(problem, found.weights, seconds * _WEIGHING)
        return Conflict(found.asking, question.needs_all(found), found, proof=proof)
    asked = [item for item, bounds in problem.items.items() if bounds.low]
    if found is None:
        # A problem that is soon searched needs no proof by weights where it has a solution.
        if question.is_soon_solved(set(asked)):
            return None
        found = count.by_climbing(seconds * _SHARE)
    if found is None and question.is_solved():
        return None
    items = asked if found is None else found.asking
    proof = "" if found is None else _weighed(problem, found.weights, seconds * _WEIGHING)
    kept = _left(items, question)
    if found is not None and len(kept) == len(items):
        return Conflict(kept, question.is_sure, found, proof=proof)
    if question.by in sat_solver.SOLVERS:
        # Sums of more items say nothing of these alone.
        proof = _proved(problem, kept, deadline - time.monotonic()) or proof
    return Conflict(kept, question.is_sure, by=question.by, proof=proof)


def _weighed(problem: Problem[Any], weights: Mapping[Hashable, int], seconds: float) -> str:
    """That dlx-none has checked the sums of weights that show that there is no solution, where it has."""
    try:
        is_shown = refutation.by_weights(problem, weights, seconds)
    except (OSError, ProgramFailed, ProgramNotFound):
        # That the time is over is an `OSError` too.
        return ""
    return _WEIGHED if is_shown else ""


def _proved(problem: Problem[Any], kept: Sequence[Hashable], seconds: float) -> str:
    """That dlx-none has checked a proof that these items can't all be held, where there is one in so many seconds."""
    relaxed = _relaxed(problem, set(kept))
    return proofs.PROVED if relaxed is not None and proofs.prove(relaxed, seconds) else ""


def _held(problem: Problem[Any]) -> dict[Hashable, int]:
    times = dict.fromkeys(problem.items, 0)
    for option in problem.options:
        for item, _ in problem._pairs(option):
            if item in times:
                times[item] += 1
    return times


# Whether items can be held, the others being let off; raises `OutOfTime` where so many seconds don't show it.
_Answer = Callable[[set[Hashable], float], bool]


class _Question:
    """Whether some items can be held as their bounds say, the others being let off.

    is_sure: whether each question was answered in time. by: who answered the last one that has no solution.
    """

    def __init__(
        self, problem: Problem[Any], deadline: float, most: float, say: Callable[[str], object]
    ) -> None:
        self._problem = problem
        self._say = say
        self._deadline = deadline
        self._most = most
        self._answers: list[tuple[str, _Answer]] = [(f"dlx{problem.kind}", self._searched)]
        # A problem whose clauses would take too long to write is left to the programs.
        is_small = sat_solver.writing_seconds(problem) < (deadline - time.monotonic()) / 2
        self._engine = sat_solver.find(problem) if is_small else None
        self.is_sure = True
        self.by = ""

    def can_go(self, kept: set[Hashable]) -> bool:
        """Whether there is still no solution; where that isn't known in time, no."""
        left = min(self._most, self._deadline - time.monotonic())
        try:
            if left > 0:
                return not self.has_solution(kept, left)
        except OutOfTime:
            pass
        self.is_sure = False
        return False

    def may_take_longer(self) -> bool:
        """Gives each question more time; False where there is none."""
        self._most *= _LONGER
        return time.monotonic() < self._deadline

    def is_soon_solved(self, kept: set[Hashable]) -> bool:
        """Whether a short search finds a solution."""
        try:
            return self._searched(kept, min(_FIRST_SECONDS, self._deadline - time.monotonic()))
        except OutOfTime:
            return False

    def is_solved(self) -> bool:
        """Whether there is a solution that holds all items. Raises `OutOfTime`."""
        by = f"dlx{self._problem.kind}"
        try:
            left = self._deadline - time.monotonic()
            with engines.solve(self._problem, left, self._say, is_proof_wanted=False) as solutions:
                if next(iter(solutions), None) is not None:
                    return True
        except engines.Claimed as claim:
            by = claim.by
        self.by = by
        return False

    def needs_all(self, found: Sums) -> bool:
        """Whether there is a solution without any one of the items that sums ask too much of."""
        asked = set(found.asking)
        lows = {item: found.weights[item] * self._problem.items[item].low for item in asked}
        if found.low - min(lows.values()) > found.high + found.given:
            return False
        return not any(self.can_go(asked - {item}) or not self.is_sure for item in found.asking)

    def has_solution(self, kept: set[Hashable], seconds: float) -> bool:
        """Asks each who may answer in turn, ever longer, and first the one who answered last. Raises `OutOfTime`."""
        deadline = time.monotonic() + seconds
        is_alone = len(self._answers) == 1 and self._engine is None
        turn = seconds if is_alone else _FIRST_SECONDS
        while True:
            for name, answer in list(self._answers):
                left = deadline - time.monotonic()
                if left <= 0:
                    raise OutOfTime("the time was over before an answer")
                try:
                    has_one = answer(kept, min(left, turn))
                except OutOfTime:
                    continue
                except sat_solver.NoAnswer as error:
                    self._answers = [one for one in self._answers if one[0] != name]
                    self._say(f"{error}; dlx{self._problem.kind} goes on")
                    continue
                self._answers.sort(key=lambda one: one[0] != name)
                if not has_one:
                    self.by = name
                return has_one
            turn *= _LONGER
            if self._engine is not None:
                # The problem is written for it where the program didn't answer at once.
                engine, self._engine = self._engine, None
                solver = sat_solver.Solver(self._problem, engine)
                self._answers.append((engine.name, lambda kept, left: self._asked(solver, kept, left)))

    def _searched(self, kept: set[Hashable], seconds: float) -> bool:
        relaxed = _relaxed(self._problem, kept)
        return relaxed is None or relaxed.count(limit=1, seconds=seconds) > 0

    def _asked(self, solver: sat_solver.Solver, kept: set[Hashable], seconds: float) -> bool:
        """What an engine answers, where dlxcheck takes its solution. Raises `NoAnswer`."""
        numbers = solver.numbers(kept, seconds)
        relaxed = _relaxed(self._problem, kept)
        if numbers is None or relaxed is None:
            return relaxed is None
        # Options without an item that is left to be held aren't of that problem.
        chosen = [self._problem.options[number] for number in numbers]
        known = [one for one in chosen if any(item in relaxed.items for item, _ in relaxed._pairs(one))]
        sat_solver.judge(solver.name, relaxed, known)
        return True


def _relaxed(problem: Problem[Any], kept: set[Hashable]) -> Problem[Any] | None:
    """The problem with bounds for these items alone, the others being held as often as they may be or less. None where
    no choice is left to be made.
    """
    items: dict[Hashable, Bounds] = {}
    secondary: list[Hashable] = []
    for item, (low, high) in problem.items.items():
        if item in kept:
            items[item] = Bounds(low, high)
        elif high == 1:
            secondary.append(item)
        else:
            items[item] = Bounds(0, high)
    if not items:
        return None
    options = [option for option in problem.options if any(item in items for item, _ in problem._pairs(option))]
    return Problem(items, [*secondary, *problem.secondary], options)


def _left(items: list[Hashable], question: _Question) -> list[Hashable]:
    """What is left when parts of the items are let off, ever smaller ones, and then single ones; these once more, while
    there is time, where some questions had no answer.
    """
    step = max(1, len(items) // 2)
    while True:
        k = 0
        while k < len(items):
            fewer = items[:k] + items[k + step :]
            if fewer and question.can_go(set(fewer)):
                items = fewer
            else:
                k += step
        if step == 1 and (question.is_sure or not question.may_take_longer()):
            return items
        # Only the last round, over single items, says which are needed.
        question.is_sure = True
        step = (step + 1) // 2
