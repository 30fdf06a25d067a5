"""Answers of other solvers to what `export` wrote, read as solutions.

Cadical answers a CNF by lines `v 1 -2 .. 0`. Clasp does so too; it answers an OPB by lines `v x1 -x2 ..`, and an answer
set program by a line of atoms, `x(1) x(5)`, for each answer. To an LP file `cbc` answers by a line for each variable
that isn't 0 (`solution`), `glpsol` by one for each, in their order (`-w`), and HiGHS by one for each
(`--solution_file`). What else they say is left out.
"""

from __future__ import annotations

import re
from collections.abc import Callable, Iterable, Iterator, Sequence
from functools import partial
from typing import Any, TypeVar

from ._run.solution import Solution
from ._run.wire import OfNumbers
from ._text.shown import text_of
from .errors import AnswerFault
from .problem import Problem

__all__ = ["ANY", "SOLVERS", "begins", "solutions"]

Option = TypeVar("Option", bound=Any)

_LITERAL = re.compile(r"(-?)x?([0-9]{1,18})\Z")
_ATOM = re.compile(r"x\(([0-9]{1,18})\)\.?\Z")
_ANSWER = re.compile(r"(?:[c%] )?Answer: [0-9]+\Z|ANSWER\Z")
_STATUS = re.compile(r"(?:s )?((?:UN)?SATISFIABLE|OPTIMUM FOUND|UNKNOWN|INCONSISTENT)\Z")
_NONE = ("UNSATISFIABLE", "INCONSISTENT")
# How the lines begin that say nothing of an answer.
_OTHERS = {
    "cadical": re.compile(r"c(?: |\Z)"),
    "clasp": re.compile(
        r"[c%o](?: |\Z)|clasp version |Reading from |Solving\.\.\.|Optimization\b|COST |Progression\b|Bounds\b|"
        r"(?:  )?(?:Models|Calls|Time|CPU Time|Threads|Optimum|Bounds|Optimal|Consequences|Enumerated|Projection) *:|"
        r"\*\*\* (?:Info|Warn) |SIGINT|TIME LIMIT|INTERRUPTED"
    ),
}
# Either of these two, for `solutions`: clasp prints lines of both kinds.
ANY = " or ".join(_OTHERS)
# What an answer without values may have been made without.
_HINTS = {
    "cadical": "without -n it prints the values",
    "clasp": "without -q it prints the answers",
    ANY: "cadical without -n prints the values, clasp without -q the answers",
}
# What cbc, glpsol and HiGHS say of their answer: none costs less, there is none, or it is one that was found.
_OF_CBC = re.compile(r"(Optimal|(?:Integer i|I)nfeasible|Unbounded|Stopped on .*?) - objective value ")
_VALUE_OF_CBC = re.compile(r"(?:\*\*)? *[0-9]+ +(\S+) +(\S+)")
_OF_GLPSOL = re.compile(r"s (?:mip|bas|ipt) [0-9]+ [0-9]+ (?:\S )?(\S) \S+\Z")
_VARIABLE = re.compile(r"x([0-9]{1,18})\Z")
# They reckon with numbers of so much exactness.
_NEARLY = 1e-4


def solutions(solver: str, problem: Problem[Option], lines: Iterable[bytes]) -> Iterator[Solution[Option]]:
    """The answers in what a solver printed, from its lines: the options of each. solver: one of `SOLVERS`, or `ANY`.

    None comes where the solver says that there is none. Whether they are solutions isn't judged; `Problem.check` does.
    Raises `AnswerFault`.
    """
    give: Callable[[list[int]], Solution[Any]] = partial(Solution, OfNumbers(problem))
    return map(give, _answers(reader_of(solver, problem), lines))


def _answers(reader: Reader, lines: Iterable[bytes]) -> Iterator[list[int]]:
    for number, line in enumerate(lines, 1):
        yield from reader.read(number, text_of(line).rstrip())
    yield from reader.end()


def reader_of(solver: str, problem: Problem[Any]) -> Reader:
    """What reads the lines of a solver."""
    return _READERS.get(solver, _OfLogic)(solver, problem)


class Reader:
    """Reads the lines of a solver as they come. `read` and `end` give the answers, and raise `AnswerFault`.

    is_least: whether it says that no solution costs less than its last answer. is_none: that there is no solution.
    """

    def __init__(self, solver: str, problem: Problem[Any]) -> None:
        self._solver = solver
        self._options = len(problem.options)
        self._number = 0
        self.is_least = self.is_none = False

    @property
    def is_said(self) -> bool:
        """Whether nothing that it may say from now on changes what it has said."""
        return self.is_least or self.is_none

    def read(self, number: int, line: str) -> Iterator[list[int]]:
        raise NotImplementedError

    def end(self) -> Iterator[list[int]]:
        raise NotImplementedError


class _OfLogic(Reader):
    """Of cadical and clasp."""

    def __init__(self, solver: str, problem: Problem[Any]) -> None:
        super().__init__(solver, problem)
        self._others = _OTHERS["clasp" if solver == ANY else solver]
        self._status: str | None = None
        self._has_answer = False
        # The variables of an answer that isn't at its end, and whether the line before said that one follows.
        self._values: dict[int, bool] = {}
        self._is_open = False
        self._follows = False

    def read(self, number: int, line: str) -> Iterator[list[int]]:
        self._number = number
        follows, self._follows = self._follows, False
        words = line.split()
        if words[:1] == ["v"]:
            yield from self._literals(words[1:])
            return
        if self._is_open:
            yield self._answer()
        status = _STATUS.match(line)
        if status is not None:
            self._status = status.group(1)
            self.is_least = self._status == "OPTIMUM FOUND" and self._has_answer
            self.is_none = self._status in _NONE and not self._has_answer
        elif self._solver != "cadical" and _ANSWER.match(line):
            self._follows = True
        elif self._solver != "cadical" and (words and all(map(_ATOM.match, words)) or follows and not words):
            yield self._atoms(words)
        elif words and not self._others.match(line):
            raise AnswerFault(number, line[:60], f"no line of an answer of {self._solver}")

    def end(self) -> Iterator[list[int]]:
        self._number += 1
        if self._is_open:
            yield self._answer()
        if self._has_answer or self._status in _NONE:
            return
        if self._status is None:
            raise AnswerFault(self._number, "", f"there is no answer: {self._solver} says whether there is a solution")
        reason = "it found none in its time" if self._status == "UNKNOWN" else f"no values; {_HINTS[self._solver]}"
        raise AnswerFault(self._number, self._status, reason)

    def _literals(self, words: Sequence[str]) -> Iterator[list[int]]:
        for word in words:
            found = _LITERAL.match(word)
            if found is None:
                raise AnswerFault(self._number, word[:60], "no variable such as 3, -3, x3 or -x3")
            variable, is_taken = int(found.group(2)), not found.group(1)
            if not variable:
                yield self._answer()
                continue
            self._is_open = True
            if variable <= self._options and self._values.setdefault(variable, is_taken) != is_taken:
                raise AnswerFault(self._number, word[:60], "the variable is both true and false")

    def _answer(self) -> list[int]:
        values, self._values, self._is_open = self._values, {}, False
        missing = next((number for number in range(1, self._options + 1) if number not in values), None)
        if missing is not None:
            reason = f"the answer has no value of variable {missing}, and the problem has {self._options} options"
            raise AnswerFault(self._number, "", reason)
        self._has_answer = True
        return [number - 1 for number in range(1, self._options + 1) if values[number]]

    def _atoms(self, words: Sequence[str]) -> list[int]:
        taken = []
        for word in words:
            found = _ATOM.match(word)
            number = int(found.group(1)) if found else 0
            if not 1 <= number <= self._options:
                raise AnswerFault(self._number, word[:60], f"the problem has {self._options} options")
            taken.append(number - 1)
        self._has_answer = True
        return sorted(set(taken))


class _OfPrograms(Reader):
    """Of cbc, glpsol and HiGHS, whose answers are a value for each variable."""

    def __init__(self, solver: str, problem: Problem[Any]) -> None:
        super().__init__(solver, problem)
        self._taken: list[int] = []
        # Whether there was a word on the answer, whether its values follow, and whether it has come.
        self._is_known = self._is_open = self._has_come = False

    @property
    def is_said(self) -> bool:
        return self._has_come or self.is_none

    def _begin(self, is_open: bool) -> None:
        self._is_known, self._is_open = True, is_open

    def _value(self, variable: int, word: str) -> None:
        if not 1 <= variable <= self._options:
            return
        try:
            value = float(word)
        except ValueError:
            value = 0.5
        if abs(value - 1) < _NEARLY:
            self._taken.append(variable - 1)
        elif not abs(value) < _NEARLY:
            raise AnswerFault(self._number, word[:60], "a variable is 0 or 1")

    def _answer(self) -> Iterator[list[int]]:
        if self._is_open:
            self._is_open, self._has_come = False, True
            yield sorted(set(self._taken))

    def end(self) -> Iterator[list[int]]:
        self._number += 1
        yield from self._answer()
        if self._has_come or self.is_none:
            return
        reason = "it found none in its time" if self._is_known else f"there is no answer of {self._solver}"
        raise AnswerFault(self._number, "", reason)


class _OfCbc(_OfPrograms):
    def read(self, number: int, line: str) -> Iterator[list[int]]:
        self._number = number
        status = _OF_CBC.match(line)
        value = _VALUE_OF_CBC.match(line)
        if status is not None and not self._is_known:
            word = status.group(1)
            self.is_least, self.is_none = word == "Optimal", word.lower().endswith("infeasible")
            self._begin(self.is_least or word.startswith("Stopped") and "no integer" not in word)
        elif self._is_open and value is not None:
            found = _VARIABLE.match(value.group(1))
            if found is not None:
                self._value(int(found.group(1)), value.group(2))
        else:
            yield from self._answer()


class _OfGlpsol(_OfPrograms):
    def read(self, number: int, line: str) -> Iterator[list[int]]:
        self._number = number
        words = line.split()
        status = _OF_GLPSOL.match(line)
        if status is not None and not self._is_known:
            word = status.group(1)
            self.is_least, self.is_none = word == "o", word == "n"
            self._begin(word in ("o", "f"))
        elif self._is_open and words[:1] == ["j"] and len(words) == 3 and words[1].isdecimal():
            self._value(int(words[1]), words[2])
        elif self._is_open and words[:1] != ["i"]:
            yield from self._answer()


class _OfHighs(_OfPrograms):
    """Its values stand under a line `# Columns`, after one that says what was found."""

    def __init__(self, solver: str, problem: Problem[Any]) -> None:
        super().__init__(solver, problem)
        self._before = ""
        self._is_feasible = False

    def read(self, number: int, line: str) -> Iterator[list[int]]:
        self._number = number
        words, before, self._before = line.split(), self._before, line
        if self._is_open and len(words) == 2 and words[0] != "#":
            found = _VARIABLE.match(words[0])
            if found is not None:
                self._value(int(found.group(1)), words[1])
        elif self._is_open:
            yield from self._answer()
        elif before == "Model status":
            self._is_known = True
            self.is_least, self.is_none = line == "Optimal", line == "Infeasible"
        elif before == "# Primal solution values":
            self._is_feasible = line == "Feasible"
        elif line.startswith("# Columns ") and not self._has_come and self._is_feasible:
            self._begin(True)


_READERS: dict[str, Callable[[str, Problem[Any]], Reader]] = {"cbc": _OfCbc, "glpsol": _OfGlpsol, "highs": _OfHighs}
SOLVERS = (*_OTHERS, *_READERS)
# How the files begin that glpsol and HiGHS write.
_FIRST = {"c Problem:": "glpsol", "Model status": "highs"}


def begins(line: bytes) -> str | None:
    """The solver whose answer may begin with this line, or `ANY`. None of a listing: its first line is a number and a
    colon."""
    text = text_of(line).rstrip()
    words = text.split()
    for first, solver in _FIRST.items():
        if text.startswith(first):
            return solver
    if _OF_CBC.match(text):
        return "cbc"
    if words[:1] == ["v"] or words and all(map(_ATOM.match, words)):
        return ANY
    return ANY if any(form.match(text) for form in (_STATUS, _ANSWER, *_OTHERS.values())) else None
