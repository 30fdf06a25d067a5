"""What the local page is answered, by a process of its own for each request.

The process reads the request from its standard input, which stays open as long as the page wants the answer: where it
ends, the process and the programs that it runs are killed. So nothing goes on for nobody, whatever becomes of the
server. Time, memory and files are limited, and the folder that it is in is its own.

Threads of the server would all be stopped by one pattern with endless backtracking. The cost is the start of Python for
each request.
"""

from __future__ import annotations

import json
import os
import re
import resource
import secrets
import signal
import sys
import threading
import time
from collections.abc import Callable, Iterator, Mapping
from contextlib import suppress
from dataclasses import dataclass, field, fields
from typing import Any

from .. import cost, engines, shuffle, symmetry, why, wishes
from .._cli.console import SHARE, limited
from .._run.stream import Solutions
from .._text.amounts import spelled
from .._text.listing import bare_steps
from .._text.shown import shown
from ..draw import drawing_of
from ..draw._grids import GRIDS
from ..errors import HelgrothyError, NoPicture, OutOfTime, ProgramFailed, TableFault, reason_of
from ..lint import Remark, lint
from ..make import KINDS
from ..make._kind import kind_of
from ..problem import Problem
from ..table import by_patterns
from . import forms, shares
from .record import Draw, Record, line_of

MOST_LIMIT = 1_000
MOST_SECONDS = 600.0
# A page gets so much of solutions or of a problem's text, and so many remarks.
_MOST_BYTES = 1 << 25
_MOST_REMARKS = 200
# A count has at most so many digits, as many as Python writes at once.
_MOST_COUNTED = 10**4000
_WAYS = ("", "random", "symmetry", "one", "cheapest")
# For the reason why there is no solution.
_REASON_SECONDS = 2.0
# Of the process, and of each program that it runs.
_MEMORY = 2 << 30
_FILES = 1 << 30
_MORE_SECONDS = 10


@dataclass(frozen=True)
class Request:
    """What a page asks: to `lint` a text, or to `make` or to `solve` the problem of a text or of a kind with values for
    its fields, or for the `chances` in it. `make` gives the problem's text.

    way: "" for the order of the search, `random` for a random one, `symmetry` for one of each set of images, `one` for
    a single solution, which is any of them with the same chance, and `cheapest` for that of least cost, by `costs` (as
    `wishes.read` takes them) and the wishes of a kind's table.
    """

    what: str = "lint"
    text: str = ""
    kind: str = ""
    values: Mapping[str, object] = field(default_factory=dict)
    way: str = ""
    limit: int = 20
    seconds: float = 10.0
    cell: str = ""
    grid: str = ""
    row: str = ""
    column: str = ""
    label: str = ""
    costs: str = ""

    @classmethod
    def of(cls, raw: bytes) -> Request:
        """The request of a text of JSON. Raises `ValueError`."""
        given: Any = json.loads(raw)
        if not isinstance(given, dict) or not set(given) <= {it.name for it in fields(cls)}:
            raise ValueError("a request that isn't one")
        for name, value in given.items():
            kind: Any = {"values": dict, "limit": int, "seconds": (int, float)}.get(name, str)
            if not isinstance(value, kind) or isinstance(value, bool):
                raise ValueError(f"a request with a bad {name}")
        request = cls(**given)
        if request.what not in _ANSWERS:
            raise ValueError("a page asks to lint, to make or to solve, or for chances")
        if request.way not in _WAYS:
            raise ValueError("a page asks for solutions in some order, up to symmetry, for any one or the cheapest one")
        if not 1 <= request.limit <= MOST_LIMIT:
            raise ValueError(f"from 1 to {MOST_LIMIT} solutions are shown")
        if not 0 < request.seconds <= MOST_SECONDS:
            raise ValueError(f"a search takes up to {MOST_SECONDS:g} seconds")
        return request


def answer(request: Request) -> Iterator[str]:
    """The lines of an answer. One with `error` is the last."""
    try:
        with limited(request.seconds):
            yield from _ANSWERS[request.what](request)
    except (MemoryError, RecursionError):
        yield line_of({"error": "it took more memory than it may"})
    except (re.error, OverflowError) as error:
        yield line_of({"error": f"a pattern is wrong: {error}"})
    except (HelgrothyError, ValueError, OSError) as error:
        yield line_of({"error": shown(reason_of(error))})


def _lint(request: Request) -> Iterator[str]:
    yield line_of({"remarks": _remarks(lint(_raw(request)))})


def _make(request: Request) -> Iterator[str]:
    text = _problem(request).text
    if len(text) > _MOST_BYTES:
        raise ValueError("the problem is too large for a page; `helgrothy make` writes it")
    yield line_of({"text": text})


def _problem(request: Request) -> Problem[Any]:
    """The problem that is asked for. Raises `ValueError`, `HelgrothyError` and `OSError`."""
    return forms.problem(request.kind, request.values) if request.kind else Problem.parse(_raw(request))


def _raw(request: Request) -> bytes:
    return request.text.encode("utf-8", "replace")


def _remarks(remarks: list[Remark]) -> list[dict[str, Any]]:
    """Remarks with the tokens as they stand in the text, by which the page finds them."""
    found = [
        {"line": it.line, "token": it.token, "name": shown(it.token), "text": shown(it.text), "fault": it.is_fault}
        for it in remarks[:_MOST_REMARKS]
    ]
    if len(remarks) > _MOST_REMARKS:
        more = f"{len(remarks) - _MOST_REMARKS} more remarks"
        found.append({"line": remarks[-1].line, "token": "", "name": "", "text": more, "fault": False})
    return found


class _Solving:
    """A search and what is found, as it is found."""

    def __init__(self, request: Request) -> None:
        self._request = request
        self._deadline = time.monotonic() + request.seconds

    def lines(self) -> Iterator[str]:
        request = self._request
        remarks = [] if request.kind else lint(_raw(request))
        if any(remark.is_fault for remark in remarks):
            yield line_of({"remarks": _remarks(remarks), "error": "the text has faults"})
            return
        problem = _problem(request)
        record = Record(problem, self._drawing(problem))
        yield record.problem()
        found = {"one": self._one, "cheapest": self._cheapest}.get(request.way, self._search)
        yield from found(problem, record)

    def chances(self) -> Iterator[str]:
        """In which share of all solutions a cell has what, as a picture."""
        problem = _problem(self._request)
        record = Record(problem, self._drawing(problem))
        yield record.problem()
        yield record.chances(*shares.find(problem, record.draw, self._left()))

    def _drawing(self, problem: Problem[Any]) -> Draw | None:
        cell, row, column, label = (
            getattr(self._request, name) or None for name in ("cell", "row", "column", "label")
        )
        by_them = by_patterns(problem, cell, row, column, label, self._grid() if cell else None)
        if by_them is not None:
            return by_them
        try:
            return drawing_of(problem)
        except NoPicture:
            return None

    def _grid(self) -> str | None:
        """The grid of the cells that a pattern finds. Raises `ValueError`."""
        grid = self._request.grid
        if grid and grid not in GRIDS:
            raise ValueError(f"{shown(grid)}: no such grid")
        return grid or None

    def _search(self, problem: Problem[Any], record: Record) -> Iterator[str]:
        shown, length = 0, 0
        try:
            with self._found(problem) as solutions:
                for found in solutions:
                    shown += 1
                    line = record.solution(shown, found.steps)
                    length += len(line)
                    yield line
                    if length > _MOST_BYTES:
                        break
        except OutOfTime as error:
            notes = [f"{self._request.seconds:g} seconds are over"]
            yield record.end(max(error.found, shown), False, notes)
            return
        # None where so much was said that it was left.
        total = shown if solutions.total is None else solutions.total
        yield record.end(total, bool(solutions.complete), [] if total else self._reasons(problem))
        # Up to symmetry there are fewer than are counted.
        if not solutions.complete and self._request.way != "symmetry":
            yield from self._count(problem)

    def _count(self, problem: Problem[Any]) -> Iterator[str]:
        """How many solutions there are, where the time that is left is enough."""
        yield line_of({"counting": True})
        with suppress(OutOfTime, ProgramFailed):
            total = problem.count(seconds=self._left() * SHARE)
            if total < _MOST_COUNTED:
                # A page's own numbers aren't that large.
                yield line_of({"count": str(total)})

    def _one(self, problem: Problem[Any], record: Record) -> Iterator[str]:
        """One of all solutions, each with the same chance."""
        found = problem.random(seconds=self._left())
        if found is None:
            yield record.end(0, True, self._reasons(problem))
            return
        yield record.solution(1, found.steps)
        yield record.end(1, False, [])
        yield from self._count(problem)

    def _cheapest(self, problem: Problem[Any], record: Record) -> Iterator[str]:
        """The solution of least cost, what it costs, and which wishes that is by."""
        costs = self._costs(problem)
        notes: list[str] = []
        try:
            found = cost.least(problem, costs.numbers, self._left() * SHARE, notes.append)
            remark = "" if found is None else _cost_of(found)
        except cost.NotLeast as error:
            found = error.best
            over = f"{self._request.seconds:g} seconds are over"
            if found is None:
                yield record.end(0, False, [*notes, over])
                return
            remark = f"it costs {spelled(found.cost)}; {over}, and there may be a cheaper one"
        except engines.Claimed as claim:
            yield record.end(0, False, [*notes, str(claim)])
            return
        if found is None:
            yield record.end(0, True, [*notes, *self._reasons(problem)])
            return
        yield record.solution(1, bare_steps(found.numbers))
        yield record.end(1, False, [*notes, remark, *costs.lines(found.numbers)])

    def _costs(self, problem: Problem[Any]) -> wishes.Costs:
        """What the options cost, by what was typed and by the wishes of a kind's table. Raises `ValueError`."""
        of_table = wishes.of_table(problem)
        if not self._request.costs.strip():
            if of_table is None:
                raise ValueError("no costs are given: a line has names of items and a number, such as ann mon 3")
            return of_table
        try:
            costs = wishes.read(self._request.costs.replace("\r", ""), problem)
        except TableFault as fault:
            raise ValueError(f"costs: {fault}") from None
        return costs if of_table is None else costs + of_table

    def _found(self, problem: Problem[Any]) -> Solutions[Any]:
        limit, seconds = self._request.limit, self._left()
        if self._request.way == "random":
            return shuffle.solve(problem, secrets.randbits(32), limit, seconds=seconds)
        if self._request.way == "symmetry":
            kind = KINDS.get(kind_of(problem.comments) or "")
            cell = self._request.cell or (kind.cell if kind else None)
            if cell is None:
                raise ValueError("up to symmetry: that takes a board or a box, or the pattern of its cells")
            grid = kind.grid(problem) if kind and not self._request.cell else self._grid()
            plan = symmetry.plan(problem, symmetry.motions(problem, cell, grid or "square"))
            return symmetry.solve(problem, plan, limit, seconds=seconds)
        return problem.solve(limit, seconds=seconds)

    def _left(self) -> float:
        return max(self._deadline - time.monotonic(), 0.01)

    def _reasons(self, problem: Problem[Any]) -> list[str]:
        """Why there is no solution, where a short while shows it."""
        with suppress(OutOfTime):
            conflict = why.find(problem, min(self._left() * SHARE, _REASON_SECONDS))
            if conflict is not None:
                return list(conflict.lines(problem, is_known=True))
        return []


def _cost_of(found: cost.Least[Any]) -> str:
    """What the cheapest solution costs, and who says that none costs less."""
    if not found.is_proved:
        return f"{spelled(found.cost)} is the least cost that was found; {found.by} reports that none is cheaper"
    others = {"states": "a sweep over states found", "prices": "prices of the items show"}
    return f"the least cost is {spelled(found.cost)}, as {others.get(found.by, f'{found.by} found')}"


_ANSWERS: dict[str, Callable[[Request], Iterator[str]]] = {
    "lint": _lint,
    "make": _make,
    "solve": lambda request: _Solving(request).lines(),
    "chances": lambda request: _Solving(request).chances(),
}


# ---- the process


def run() -> None:
    """Answers the request on standard input, on standard output. The process is the first of a group of its own."""
    asked, answers = os.dup(0), os.dup(1)
    nowhere = os.open(os.devnull, os.O_RDWR)
    for stream in (0, 1, 2):
        os.dup2(nowhere, stream)
    raw = _read(asked)
    threading.Thread(target=_end_with, args=[asked], daemon=True).start()
    try:
        request = Request.of(raw)
    except (ValueError, RecursionError) as error:
        _send(answers, line_of({"error": shown(str(error))}))
        os._exit(0)
    _limit(request)
    for line in answer(request):
        _send(answers, line)
    os._exit(0)


def _read(asked: int) -> bytes:
    """The request: a line with its length, and as many bytes."""
    head = b""
    while not head.endswith(b"\n"):
        head += os.read(asked, 1) or sys.exit(0)
    raw = b""
    while len(raw) < int(head):
        raw += os.read(asked, int(head) - len(raw)) or sys.exit(0)
    return raw


def _end_with(asked: int) -> None:
    """Ends the process and its programs where nobody wants them any longer."""
    while os.read(asked, 1 << 10):
        pass
    if os.getpgrp() == os.getpid():
        os.killpg(0, signal.SIGKILL)
    os._exit(0)


def _limit(request: Request) -> None:
    seconds = int(request.seconds) + _MORE_SECONDS
    for what, most in (
        (resource.RLIMIT_AS, _MEMORY),
        (resource.RLIMIT_FSIZE, _FILES),
        (resource.RLIMIT_CPU, seconds),
        (resource.RLIMIT_CORE, 0),
    ):
        _, hard = resource.getrlimit(what)
        most = most if hard == resource.RLIM_INFINITY else min(most, hard)
        resource.setrlimit(what, (most, most))


def _send(answers: int, line: str) -> None:
    raw = f"{line}\n".encode()
    while raw:
        raw = raw[os.write(answers, raw) :]
