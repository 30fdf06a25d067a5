"""One solution, by the programs or by other engines beside them: cadical and clasp, where the path has them.

The program searches alone first. Where it has no solution soon the engine that is for the problem is given it, and has
a short turn of its own, which ends where it doesn't work. Then the other engine begins, and all go on until one of them
answers. What the engine calls a solution is written as a listing and is one where dlxcheck judges it to be one. That
there is none is what the engine reports: then the engines are ended, and beside the program cadical is asked for a
proof, which dlx-none judges. Which solution is the first in their order, how many there are and that these are all is
for the programs alone to say.

A nonogram of 25 by 25 takes cadical a second, and an exam timetable without a solution takes clasp one, where the
programs come to no end. The command first has two seconds of CPU time, then the engine two alone, which are often
enough. With turns throughout, a search that only the program ends takes twice as long; with seconds by the clock, the
answer would depend on what else a machine does.
"""

from __future__ import annotations

import time
from collections.abc import Callable, Generator
from typing import Any, TypeVar

from ._reason import proofs, sat_solver
from ._reason.sat_solver import Asked, NoAnswer
from ._run.programs import Run
from ._run.report import Hear, unheard
from ._run.solution import Solution
from ._run.stream import Outcome, Solutions, sooner
from ._run.wire import OfNumbers
from .errors import HelgrothyError, OutOfTime, ProgramNotFound
from .problem import Problem

__all__ = ["Claimed", "solve"]

Option = TypeVar("Option", bound=Any)

# The program is alone for so many seconds of a processor, with what this process takes beside it, or for this part of
# its time where that is less.
_ALONE_SECONDS, _ALONE_SHARE = 2.0, 0.25
# Then the first engine is, for so many seconds of a processor, or by the clock where it has had less; and one that
# takes no time of a processor for so long hangs.
_TURN_SECONDS, _MOST_TURN, _IDLE_SECONDS = 2.0, 10.0, 1.0
# An engine may take so long, and the writing of the problem for it.
_MOST_SECONDS, _MOST_WRITING = sat_solver.MOST_SECONDS, 8.0
# After so many seconds without a solution, and without an engine, a line says which one may find one.
_LONG_SECONDS = 2.0
# So long after an engine's report a line says that it is to be proved.
_QUIET_SECONDS = 2.0
_ORDER = "--shuffle tries the options in another order"


class Claimed(HelgrothyError):
    """An engine reports that there is no solution, where the programs came to no end and nothing proves it. by: its
    name.
    """

    by: str

    def __init__(self, by: str, program: str) -> None:
        super().__init__(f"no solution, says {by}; {program} hasn't proved it")
        self.by = by


def solve(
    problem: Problem[Option],
    seconds: float | None = None,
    say: Callable[[str], object] = lambda line: None,
    hint: Callable[[str], bool] = lambda line: False,
    report: Hear = unheard,
    *,
    is_proof_wanted: bool = True,
) -> Solutions[Option]:
    """One solution, whoever finds it.

    say: gets a line that says who found it, where that is an engine, and what an engine did wrong. hint: gets one,
    once, that says which engine may find a solution, where none was found soon and the path has none, and says whether
    it was shown; where it wasn't, `say` gets it at the end of the time. report: gets what is at work.

    is_proof_wanted: where an engine reports that there is none, and the path has cadical, it is asked for a proof, for
    the seconds that are left, or a minute without any. Where dlx-none finds it right there is no solution, and the
    `proof` of what comes back says so; else `Claimed` is raised. Raises what `Problem.solve` does, too.
    """

    def begin(outcome: Outcome) -> Generator[Solution[Option], None, None]:
        with _Beside(problem, seconds, say, hint, report, is_proof_wanted) as beside:
            try:
                with problem._search(limit=1, seconds=seconds, meanwhile=beside.look) as solutions:
                    for solution in solutions:
                        beside.doubt()
                        yield solution
                    outcome.end(solutions.total or 0, bool(solutions.complete))
            except _Answered as answered:
                yield Solution(OfNumbers(problem), answered.numbers)
                outcome.end(1, False)
            except _Proved:
                outcome.end(0, True, proofs.PROVED)
            except OutOfTime as error:
                if beside.claim is not None:
                    raise beside.claim from None
                beside.help()
                error.beside = beside.names
                raise

    def again(most: float) -> Solutions[Option]:
        return solve(problem, sooner(seconds, most), is_proof_wanted=is_proof_wanted)

    return Solutions(begin, again)


class _Answered(Exception):
    """An engine has found a solution: the numbers of its options."""

    def __init__(self, numbers: list[int]) -> None:
        self.numbers = numbers


class _Proved(Exception):
    """It is proved that there is no solution."""


class _Beside:
    """Engines beside a program's search, looked at while that finds nothing. claim: what one of them reports."""

    def __init__(
        self,
        problem: Problem[Any],
        seconds: float | None,
        say: Callable[[str], object],
        hint: Callable[[str], bool],
        report: Hear,
        is_proof_wanted: bool,
    ) -> None:
        self._problem = problem
        self._say = say
        self._hint = hint
        self._report = report
        self._program = f"dlx{problem.kind}"
        self._begun, self._used = time.monotonic(), time.process_time()
        self._seconds = float("inf") if seconds is None else seconds
        self._has_engines = False
        self._waiting: list[sat_solver.Engine] | None = None
        self._at_work: list[_Turn] = []
        self._names: list[str] = []
        self._is_helped = self._is_over = False
        self._is_proof_wanted = is_proof_wanted
        self._proving: proofs.Proving | None = None
        self._claimed = 0.0
        self.claim: Claimed | None = None

    def __enter__(self) -> _Beside:
        return self

    def __exit__(self, *_: object) -> None:
        self._is_over = True
        self._end_engines()
        if self._proving is not None:
            self._proving.__exit__()

    def _end_engines(self) -> None:
        for turn in self._at_work:
            turn.asked.__exit__()
        self._at_work = []

    def look(self, run: Run) -> None:
        """Begins an engine where it is time for it. Raises `_Answered`, `_Proved` and `Claimed`."""
        if self._is_over:
            return
        if self._proving is not None:
            self._look_at_proof(self._proving)
            return
        if self._waiting is None:
            self._waiting = sat_solver.found(self._problem)
            self._has_engines = bool(self._waiting)
        if not self._has_engines:
            if not self._is_helped and self._passed() > _LONG_SECONDS:
                self._is_helped = True
                self._is_over = self._hint(sat_solver.missing(sat_solver.in_order(self._problem)[0]))
            return
        for turn in list(self._at_work):
            if self._proving is None:
                self._look_at(turn, run)
        if self._waiting and self._proving is None and self._is_time(run):
            self._begin(self._waiting.pop(0), run)

    def help(self) -> None:
        """Says which engine may find a solution, where the path has none and it wasn't said."""
        if not self._has_engines and not self._is_over and self._passed() > _ALONE_SECONDS:
            self._is_over = True
            self._say(sat_solver.missing(sat_solver.in_order(self._problem)[0]))

    @property
    def names(self) -> str:
        """The engines that were asked, and nothing where none was."""
        return " and ".join(self._names)

    def _passed(self) -> float:
        return time.monotonic() - self._begun

    def _is_time(self, run: Run) -> bool:
        """Whether one more engine may begin: where the program, or the engine before, has had its turn."""
        if self._names:
            return all(turn.is_over for turn in self._at_work)
        worked = run.worked() + time.process_time() - self._used
        return worked > _ALONE_SECONDS or self._passed() > self._seconds * _ALONE_SHARE

    def _begin(self, engine: sat_solver.Engine, run: Run) -> None:
        left = self._seconds - self._passed()
        if sat_solver.writing_seconds(self._problem) > min(left / 2, _MOST_WRITING):
            # It is for the others too.
            self._is_over = not self._at_work
            self._waiting = []
            if self._is_over:
                self._say(f"no solution yet; the problem is too large for {engine.name} here; {_ORDER}")
            return
        turn = _Turn(Asked(engine, self._problem, sat_solver.text(engine, self._problem)))
        self._at_work.append(turn)
        if self._names:
            # All go on from here.
            turn.is_over = True
        else:
            run.pause()
        self._names.append(engine.name)
        self._report_at_work()

    def _report_at_work(self) -> None:
        self._report(at_work=[self._program, *(turn.asked.name for turn in self._at_work)])

    def _look_at(self, turn: _Turn, run: Run) -> None:
        asked = turn.asked
        try:
            if asked.has_ended():
                self._end(asked.name, asked.numbers(), run)
            elif time.monotonic() - asked.begun > _MOST_SECONDS:
                raise NoAnswer.in_time(asked.name)
            elif turn.ends():
                run.go_on()
        except NoAnswer as error:
            asked.__exit__()
            self._at_work.remove(turn)
            self._report_at_work()
            run.go_on()
            self._say(f"{error}; {self._program} goes on")

    def _end(self, name: str, numbers: list[int] | None, run: Run) -> None:
        if numbers is None:
            self.claim = Claimed(name, self._program)
            self._prove(run)
            return
        sat_solver.judge(name, self._problem, [self._problem.options[number] for number in numbers])
        found = f"{name} found a solution, and dlxcheck judges it to be one"
        self._say(f"{found}; {self._program} had none in {self._passed():.2g} seconds")
        raise _Answered(numbers)

    def _prove(self, run: Run) -> None:
        """Has what an engine reports be proved, while the program goes on. Raises `Claimed`."""
        assert self.claim is not None
        if not self._is_proof_wanted or not proofs.are_possible():
            raise self.claim
        self._end_engines()
        left = proofs.MOST_SECONDS if self._seconds == float("inf") else self._seconds - self._passed()
        try:
            self._proving = proofs.Proving(self._problem, left)
        except (OSError, ProgramNotFound):
            raise self.claim from None
        self._claimed = self._passed()
        run.go_on()
        self._report(at_work=[self._program, self._proving.name])

    def _look_at_proof(self, proving: proofs.Proving) -> None:
        """Raises `_Proved` and `Claimed`."""
        assert self.claim is not None
        name, is_proved = proving.name, proving.verdict()
        if is_proved:
            raise _Proved
        if is_proved is not None:
            raise self.claim
        if proving.name != name:
            self._report(at_work=[self._program, proving.name])
        if self._claimed and self._passed() - self._claimed > _QUIET_SECONDS:
            self._claimed = 0.0
            self._say(f"{self.claim.by} reports that there is no solution; {proofs.SOLVER} is asked for a proof")

    def doubt(self) -> None:
        """The program has found a solution."""
        if self.claim is not None:
            self._say(f"{self.claim.by} reports that there is no solution, and there is one")


class _Turn:
    """An engine at work, and whether its turn is over, in which the program waits for it."""

    def __init__(self, asked: Asked) -> None:
        self.asked = asked
        self.is_over = False
        self._worked, self._at = 0.0, asked.begun

    def ends(self) -> bool:
        """Whether it has had its turn by now, or hangs."""
        now, worked = time.monotonic(), self.asked.worked()
        if worked > self._worked:
            self._worked, self._at = worked, now
        is_idle = now - self._at > _IDLE_SECONDS
        self.is_over = self.is_over or is_idle or now - self.asked.begun > _MOST_TURN or worked > _TURN_SECONDS
        return self.is_over
