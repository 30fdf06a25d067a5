"""What the commands do that solve a problem: the solutions that are asked for, the cheapest one, or how many there are.

What only some of them need they load themselves.
"""

from __future__ import annotations

import re
import time
from collections.abc import Iterator, Sequence
from typing import TYPE_CHECKING, Any

from .. import engines
from .._text.listing import bare_steps
from ..errors import OutOfTime, TableFault
from ..given import Given
from ..make import KINDS
from ..make._kind import Found, kind_of, read_text
from ..problem import Problem
from . import console
from . import count as count_command
from .console import fail, write
from .line import Report
from .puzzle_acts import choices, uniqueness
from .showing import check as check_forms
from .showing import listed_options, page_of, showing
from .watch import Watch

if TYPE_CHECKING:
    import argparse

    from .._run.solution import Solution
    from .._run.stream import Solutions
    from ..wishes import Costs

# A reason is looked for so long where a problem turns out to have no solution.
_REASON_SECONDS = 2.0
# Of the time of a search that is shown as a page, which is put together at the end.
_SHARE_OF_PAGE = 0.7
_MAY_SAY = "`helgrothy why` may say which items conflict"


def solve(problem: Problem[Any], arguments: argparse.Namespace) -> int:
    """Shows what is asked of a problem, and gives the status."""
    check(arguments)
    asked = Given(problem, *choices(problem, arguments))
    costs = _costs(problem, arguments)
    if costs is not None:
        return _show_least(asked, costs if arguments.all_costs else costs.folded(), arguments)
    if arguments.all_costs:
        raise ValueError("--all-costs is of --cost, and of the wishes of a table")
    if arguments.count:
        count_command.check(arguments)
        return count_command.show(asked.inner, arguments)
    if arguments.chances:
        from . import chances as chances_command

        return chances_command.show(asked, arguments)
    return _Listing(asked, arguments).show()


def check(arguments: argparse.Namespace) -> None:
    """Raises `ValueError` where options don't go together."""
    check_forms(arguments)
    if arguments.options and (arguments.count or arguments.chances):
        raise ValueError("--options is of solutions: without --count and --chances")
    if arguments.seed is not None and not arguments.random:
        raise ValueError("--seed is of --random")
    if (arguments.random or arguments.chances) and (arguments.shuffle is not None or arguments.up_to_symmetry):
        word = "--random" if arguments.random else "--chances"
        raise ValueError(f"{word} is of all solutions: without --shuffle and --up-to-symmetry")


def check_one(arguments: argparse.Namespace) -> None:
    """Raises `ValueError` where more is asked for than a search of another kind finds."""
    if _asks_which(arguments) or arguments.count or arguments.chances or arguments.unique:
        words = "--all, --limit, --number, --random, --count, --chances and --unique"
        raise ValueError(f"this search finds one solution: without {words}")
    if arguments.shuffle is not None or arguments.up_to_symmetry:
        raise ValueError("this search has an order of its own: without --shuffle and --up-to-symmetry")


def _asks_which(arguments: argparse.Namespace) -> bool:
    return bool(arguments.all or arguments.limit or arguments.number or arguments.random)


# ---- one solution after another


class _Listing:
    """The solutions that are asked for, as they are found."""

    def __init__(self, asked: Given[Any], arguments: argparse.Namespace) -> None:
        self._asked = asked
        self._arguments = arguments
        self._begun = time.monotonic()
        self._number: int | None = arguments.number
        self._limit: int | None = _limit(arguments)
        if arguments.svg and not arguments.random and self._limit != (self._number or 1):
            raise ValueError("an SVG is of one solution: --number says which")
        # How many solutions there are, where one of all is drawn by lot.
        self._of: int | None = None
        self._shown = 0
        self._pair: list[list[int]] = []
        self._page = page_of(asked.problem, arguments)
        if self._page is not None and self._number is None:
            from .._page.file import MOST_SOLUTIONS

            self._limit = min(self._limit or MOST_SOLUTIONS, MOST_SOLUTIONS)
        self._show = showing(asked.problem, arguments, listed_options, self._page)

    def show(self) -> int:
        """Shows them, and gives the status."""
        inner = self._asked.inner
        try:
            with Watch(inner, console.say) as watch:
                if self._arguments.random:
                    self._draw_lot(inner)
                if self._of == 0:
                    return self._end(0, True, "", watch)
                with Report(_at_work(inner, self._arguments, self._number)) as report:
                    solutions, among = _search(
                        inner, self._arguments, self._limit, self._number, self._left(), self._of, report
                    )
                    with solutions:
                        self._show_all(_counted_beside(solutions, watch), watch, report)
        except OutOfTime as error:
            return self._give_up(error)
        except engines.Claimed as claim:
            message = f"{claim}; {_MAY_SAY}"
            console.say(message)
            self._write_page(0, False, [message])
            return 1
        # There is no total where the page was full before.
        total = self._shown if solutions.total is None else solutions.total
        return self._end(total, bool(solutions.complete), among, watch, solutions.proof)

    def _draw_lot(self, problem: Problem[Any]) -> None:
        from .._run.numbered import lot

        self._of = count_command.counted_with_line(problem, self._left()).total
        self._limit = self._number = lot(self._of, self._arguments.seed) if self._of else None

    def _left(self) -> float | None:
        """The seconds that are left for the search, which leaves some for a page."""
        most = self._arguments.seconds
        if most is None:
            return None
        share = _SHARE_OF_PAGE if self._page is not None else 1.0
        return max(0.0, float(most) * share - (time.monotonic() - self._begun))

    def _show_all(self, solutions: Iterator[Solution[Any]], watch: Watch, report: Report) -> None:
        for searched in solutions:
            watch.end()
            if report.is_due() and self._number is None:
                self._report_how_far(searched, report)
            found = self._asked.outer(searched)
            self._show(self._number or self._shown + 1, found, lambda _: found.numbers, lambda: found.steps)
            self._shown += 1
            if self._arguments.unique:
                self._pair.append(found.numbers)
            if self._page is not None:
                if self._page.is_full:
                    return
                if self._left() == 0.0:
                    raise OutOfTime(f"it wasn't done in {self._arguments.seconds:g} seconds")

    def _report_how_far(self, searched: Solution[Any], report: Report) -> None:
        if self._arguments.shuffle is not None:
            report(far=f"{self._shown + 1:,} found")
            return
        from .._spans.progress import how_far, share_before

        report(far=how_far(self._shown + 1, share_before(searched.steps), report.seconds))

    def _give_up(self, error: OutOfTime) -> int:
        reached = max(error.found, self._shown)
        self._write_page(reached, False, [f"{error}"])
        beside = f", and {error.beside} had none either" if error.beside and not reached else ""
        return fail(f"{error}; {_counted(reached)} till then{beside}")

    def _end(self, total: int, is_complete: bool, among: str, watch: Watch, proof: str = "") -> int:
        """Says how many there were, and why there was none; gives the status.

        proof: what shows that there is none, where that isn't the program.
        """
        proved = [proof] if proof else []
        for line in proved:
            console.say(line)
        if self._arguments.unique:
            for line in uniqueness(self._asked.problem, self._pair, among):
                console.say(line)
        elif self._of:
            console.say(f"This is number {self._number} of {_counted(self._of)}.")
        else:
            console.say(f"Altogether {_counted(total)}{among}{'.' if is_complete else ' (limit).'}")
        reasons = [] if total or watch.has_shown else _reasons(self._asked, self._deadline())
        for line in reasons:
            console.say(line)
        self._write_page(total, is_complete, [*proved, *reasons])
        if total and not self._shown:
            numbers = f"1 to {total}" if total > 1 else "1 alone"
            return fail(f"there is no solution {self._number}: --number takes {numbers}", 1)
        return 0 if self._shown and len(self._pair) < 2 else 1

    def _deadline(self) -> float | None:
        return None if self._arguments.seconds is None else self._begun + float(self._arguments.seconds)

    def _write_page(self, total: int, is_complete: bool, notes: Sequence[str]) -> None:
        if self._page is not None:
            write([self._page.text(total, is_complete, notes)])


def _limit(arguments: argparse.Namespace) -> int | None:
    """How many solutions are searched for; None for all."""
    if arguments.all:
        return None
    if arguments.unique:
        return 2
    return int(arguments.limit or arguments.number or 1)


def _counted_beside(solutions: Solutions[Any], watch: Watch) -> Iterator[Solution[Any]]:
    """The solutions; where an engine reports that there is none, the count of the bounds may still say why."""
    try:
        yield from solutions
    except engines.Claimed:
        watch.wait()
        raise


def _search(
    problem: Problem[Any],
    arguments: argparse.Namespace,
    limit: int | None,
    number: int | None,
    seconds: float | None,
    total: int | None,
    report: Report,
) -> tuple[Solutions[Any], str]:
    """The solutions that are asked for, and among what they are counted; total: of all, where that is known."""
    if arguments.shuffle is not None:
        from .. import shuffle

        return shuffle.solve(problem, arguments.shuffle, limit, number or 1, seconds=seconds), ""
    if arguments.up_to_symmetry:
        return _up_to_symmetry(problem, arguments, limit, number or 1, seconds)
    if number is not None:
        from .._run import numbered

        return numbered.solve(problem, number, seconds, total), ""
    if limit == 1:
        return engines.solve(problem, seconds, console.say, console.hint, report), ""
    return problem.solve(limit, seconds=seconds), ""


def _at_work(problem: Problem[Any], arguments: argparse.Namespace, number: int | None) -> list[str]:
    """The programs that `_search` begins."""
    program = f"dlx{problem.kind}"
    if arguments.shuffle is not None:
        return ["dlx-span"]
    return [program] if number is None or arguments.up_to_symmetry else ["dlx-count", program]


def _up_to_symmetry(
    problem: Problem[Any], arguments: argparse.Namespace, limit: int | None, spacing: int, seconds: float | None
) -> tuple[Solutions[Any], str]:
    kind = KINDS.get(kind_of(problem.comments) or "")
    cell = arguments.cell or (kind.cell if kind else None)
    if cell is None:
        hint = "of a problem of your own, --cell says which cells an option has"
        raise ValueError(f"--up-to-symmetry is for boards and boxes; {hint}")
    from .. import symmetry

    grid = arguments.cell_grid if arguments.cell else kind and kind.grid(problem)
    try:
        plan = symmetry.plan(problem, symmetry.motions(problem, cell, grid or "square"))
    except (re.error, OverflowError, RecursionError) as error:
        raise ValueError(f"a pattern is wrong: {error}") from None
    count = len(plan.motions)
    among = f" up to {count} symmetries" if count > 1 else ", and no symmetry of its cells but that of no change"
    return symmetry.solve(problem, plan, limit, spacing, seconds=seconds), among


# ---- the cheapest one, or that of another search


def show_found(found: Found, arguments: argparse.Namespace, notes: Sequence[str] = ()) -> int:
    """Shows the one solution that a search of another kind found, and what is to be said of it."""
    options = found.problem.options
    page = page_of(found.problem, arguments)
    show = showing(found.problem, arguments, listed_options, page)
    show(1, [options[number] for number in found.numbers], lambda _: found.numbers, lambda: bare_steps(found.numbers))
    for line in [found.remark, *notes]:
        console.say(line)
    if page is not None:
        write([page.text(1, False, [found.remark, *notes])])
    return 0


def _costs(problem: Problem[Any], arguments: argparse.Namespace) -> Costs | None:
    """What the options cost, by the file of --cost and the wishes of a table; None without either."""
    if arguments.cost is None and kind_of(problem.comments) is None:
        return None
    from .. import wishes

    of_table = wishes.of_table(problem)
    if arguments.cost is None:
        if of_table is None or not _asks_for_others(arguments):
            return of_table
        console.say("The wishes of the table don't count here: only where the cheapest solution is asked for.")
        return None
    check_one(arguments)
    return costs_of(problem, arguments)


def costs_of(problem: Problem[Any], arguments: argparse.Namespace) -> Costs | None:
    """What the options cost, by the file of --cost and the wishes of a table; None without either."""
    from .. import wishes

    of_table = wishes.of_table(problem)
    if arguments.cost is None:
        return of_table
    if getattr(arguments, "problem", "") == arguments.cost == "-":
        raise ValueError("the problem and the costs can't both come from standard input")
    try:
        costs = wishes.read(read_text(arguments.cost), problem)
    except TableFault as fault:
        raise ValueError(f"{'standard input' if arguments.cost == '-' else arguments.cost}: {fault}") from None
    return costs if of_table is None else costs + of_table


def _asks_for_others(arguments: argparse.Namespace) -> bool:
    """Whether other solutions than the cheapest one are asked for."""
    ways = arguments.shuffle is not None or arguments.up_to_symmetry
    return _asks_which(arguments) or ways or arguments.count or arguments.chances or arguments.unique


def _show_least(asked: Given[Any], costs: Costs, arguments: argparse.Namespace) -> int:
    from .. import cost
    from .._text.amounts import spelled

    deadline = None if arguments.seconds is None else time.monotonic() + arguments.seconds
    seconds = None if arguments.seconds is None else arguments.seconds * console.SHARE
    try:
        numbers_of = [costs.numbers[place] for place in asked.places]
        with Report(["dlx3"]) as report:
            least = cost.least(asked.inner, numbers_of, seconds, console.say, console.hint, report)
    except cost.NotLeast as error:
        most = cost.MOST_SECONDS if arguments.seconds is None else arguments.seconds
        if error.best is None:
            return fail(f"no solution was found in {most:g} seconds")
        numbers = asked.numbers(error.best.numbers)
        best = f"{spelled(error.best.cost)} is the least cost that was found"
        proof = f"in {most:g} seconds it wasn't proved that there is no less"
        if arguments.seconds is None:
            proof += "; --seconds gives more"
        found = Found(asked.problem, numbers, f"helgrothy: {best}; {proof}")
        show_found(found, arguments, list(costs.lines(numbers)))
        return 2
    except engines.Claimed as claim:
        console.say(f"{claim}; {_MAY_SAY}")
        return 1
    if least is None:
        for line in ["Altogether 0 solutions.", *_reasons(asked, deadline)]:
            console.say(line)
        return 1
    numbers = asked.numbers(least.numbers)
    remark = f"The least cost is {spelled(least.cost)}."
    if not least.is_proved:
        remark = f"{spelled(least.cost)} is the least cost that was found; {least.by} reports that none is cheaper."
    found = Found(asked.problem, numbers, remark)
    return show_found(found, arguments, list(costs.lines(numbers)))


# ---- what is said


def _counted(total: int) -> str:
    return f"{total} solution{'' if total == 1 else 's'}"


def _reasons(asked: Given[Any], deadline: float | None) -> list[str]:
    """Why there is no solution, where a short while shows it."""
    from .. import why as reasons

    left = _REASON_SECONDS if deadline is None else min(_REASON_SECONDS, deadline - time.monotonic())
    try:
        conflict = reasons.find(asked.inner, left * console.SHARE) if left > 0 else None
    except OutOfTime:
        conflict = None
    if conflict is None:
        return [f"no reason was found in {max(left, 0):.2g} seconds; `helgrothy why` may look longer"]
    return list(asked.explained(conflict.lines(asked.inner, is_known=True)))
