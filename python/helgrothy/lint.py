"""All faults of a problem's text, and what is no fault and yet often a slip."""

from __future__ import annotations

from collections import Counter
from collections.abc import Callable, Iterator
from dataclasses import dataclass
from itertools import islice
from typing import Any

from . import engines
from ._reason import sat_solver
from ._reason.sums import search
from ._text.shown import shown
from ._text.syntax import COMMENT, Bounds, Sheet, read
from .errors import ProgramFailed, ProgramNotFound
from .problem import Problem

__all__ = ["Remark", "lint"]

_LONGEST = 40
# Of each rule so many remarks are given.
_MOST = 1_000


@dataclass(frozen=True)
class Remark:
    """What is wrong or odd: the line, counted from 1, the token or the beginning of the line, and the words."""

    line: int
    token: str
    text: str
    is_fault: bool = False

    def __str__(self) -> str:
        token = f"{self.token}: " if self.token else ""
        return f"line {self.line}: {shown(token + self.text)}"


def lint(
    text: bytes,
    kind: int = 3,
    seconds: float = 1.0,
    searching: float = 0.0,
    say: Callable[[str], object] = lambda line: None,
) -> list[Remark]:
    """All remarks on the text of a problem for dlx`kind`, in the order of its lines. Of bytes it raises nothing.

    Proofs that the sums of the bounds can't work are looked for so many seconds. After a thousand faults the text
    isn't read on, and of each kind of slip a thousand are reported.

    searching: whether there is a solution is searched so many seconds, by the programs and by another engine where the
        path has one. say: gets a line that says what that did wrong.
    """
    if not isinstance(text, (bytes, bytearray)):
        right = "lint(problem.text.encode())" if isinstance(text, Problem) else "lint(text.encode())"
        raise TypeError(f"a problem's text is looked at as bytes, and this is of type {type(text).__name__}: {right}")
    sheet = read(text, kind)
    # What comes after all others is worked out before them.
    comment = list(_hash(sheet))
    faults = [Remark(fault.line, fault.token, _reason(fault.reason, fault.hint), True) for fault in sheet.faults]
    remarks = comment + faults
    for rule in (_mark, _bars, _numbers):
        remarks += _some(rule(sheet))
    if sheet.is_cut:
        rest = f"so many faults ({len(sheet.faults)}) that the rest isn't read"
        remarks.append(Remark(sheet.faults[-1].line, "", rest))
        return sorted(remarks, key=lambda remark: remark.line)
    for rule in (_twins, _ignored) if comment and faults else (_held, _twins, _ignored):
        remarks += _some(rule(sheet))
    if not sheet.faults and not any(remark.text.endswith("no solution") for remark in remarks):
        problem = Problem._of_sheet(sheet)
        found = search(problem, seconds)
        if found is not None:
            remarks.append(Remark(sheet.item_line, "", f"{found.text(problem.name)}: there is no solution"))
        elif sat_solver.writing_seconds(problem) < searching:
            remarks += [Remark(sheet.item_line, "", reason) for reason in _searched(problem, searching, say)]
    return sorted(remarks, key=lambda remark: remark.line)


def _searched(problem: Problem[Any], seconds: float, say: Callable[[str], object]) -> Iterator[str]:
    """That there is no solution, and who says so, where a search shows it in so many seconds."""
    try:
        with engines.solve(problem, seconds, say) as solutions:
            if next(iter(solutions), None) is None:
                yield solutions.proof or f"dlx{problem.kind} finds that there is no solution"
    except engines.Claimed as claim:
        yield str(claim)
    except (OSError, ProgramFailed, ProgramNotFound):
        # That the time is over is an `OSError` too.
        pass


def _some(remarks: Iterator[Remark]) -> Iterator[Remark]:
    """The first remarks of a rule, and how many there are beside them."""
    yield from islice(remarks, _MOST)
    last = None
    for count, last in enumerate(remarks, 1):
        pass
    if last is not None:
        yield Remark(last.line, "", f"{count} more such remark{'' if count == 1 else 's'}, the last one for this line")


def _reason(reason: str, hint: str) -> str:
    return f"{reason} ({hint})" if hint else reason


def _hash(sheet: Sheet) -> Iterator[Remark]:
    """`# a comment` is the item line where it is the first line."""
    if sheet.item_tokens and sheet.item_tokens[0].startswith("#"):
        first, *_ = sheet.item_tokens
        faulty = {fault.line for fault in sheet.faults}
        if not any(first in option.uses for option in sheet.options if option.line not in faulty):
            line = " ".join(sheet.item_tokens)[:_LONGEST]
            yield Remark(sheet.item_line, line, f"taken for the items; {COMMENT}")


def _mark(sheet: Sheet) -> Iterator[Remark]:
    """A byte-order mark becomes part of the first name."""
    if sheet.item_tokens and sheet.item_tokens[0].startswith("\ufeff"):
        yield Remark(sheet.item_line, sheet.item_tokens[0], "begins with a byte-order mark, which is part of the name")


def _bars(sheet: Sheet) -> Iterator[Remark]:
    """`| a b` is a comment, not an item line without primary items: reported where what follows uses its names."""
    if not sheet.item_line:
        return
    used = set(sheet.items)
    for line, comment in sheet.comments:
        words = set(comment.replace("|", " ").split())
        if line < sheet.item_line and words and used and used <= words:
            text = f"a comment, as each line that begins with a bar; the items are taken from line {sheet.item_line}"
            yield Remark(line, f"| {comment}"[:_LONGEST], text)


def _numbers(sheet: Sheet) -> Iterator[Remark]:
    """`2 | A` names an item 2 and makes A secondary."""
    held = {name for option in sheet.options for name in option.uses}
    for token, behind in zip(sheet.item_tokens, sheet.item_tokens[1:]):
        if behind == "|" and token.isdigit() and token not in held:
            yield Remark(sheet.item_line, f"{token} |", f"an item named {token}; a bound is written {token}|NAME")


def _held(sheet: Sheet) -> Iterator[Remark]:
    """Items that too few options hold."""
    times = Counter(name for option in sheet.options for name in option.uses)
    for item in sheet.items.values():
        count = times[item.name]
        if item.bounds is not None and count < item.bounds.low:
            yield Remark(sheet.item_line, item.name, _too_few(item.bounds, count))
        elif not count:
            yield Remark(sheet.item_line, item.name, "in no option")


def _too_few(bounds: Bounds, count: int) -> str:
    if not count:
        return "in no option: there is no solution"
    options = "1 option" if count == 1 else f"{count} options"
    return f"in {options}, and to be held {bounds.low} times: there is no solution"


def _twins(sheet: Sheet) -> Iterator[Remark]:
    """Options that are equal make equal solutions."""
    first: dict[frozenset[tuple[str, str | None]], int] = {}
    for option in sheet.options:
        uses = frozenset(option.uses.items())
        line = first.setdefault(uses, option.line)
        if line != option.line:
            yield Remark(option.line, " ".join(option.uses)[:_LONGEST], f"the same option as that of line {line}")


def _ignored(sheet: Sheet) -> Iterator[Remark]:
    for line in sheet.ignored:
        yield Remark(line, "", "an option without a primary item is ignored")
