"""The search for a design of few tests, between one that a quick rule makes and the fewest that may be enough.

The quick design is made shorter, test by test. By turns with that a search by options goes on, which may also show that
fewer tests aren't enough.

Where there is a design, such a search mostly finds one in a moment or hardly ever. The order of options and items
decides which, and fewer tests may be easier than more. So the fewest that may be enough are tried first, then numbers
that halve what is left above, and then all that again in other orders. A try ends after a number of steps and not of
seconds, so that every machine finds the same, however busy it is.
"""

from __future__ import annotations

import itertools
import random
import time
from collections.abc import Hashable, Iterable, Sequence
from dataclasses import dataclass

from ..._run.programs import Run
from ..._run.report import Hear, unheard
from ..._text.names import codes
from ..._text.shown import bytes_of
from ...errors import OutOfTime, ProgramFailed
from ...problem import Problem
from ...shuffle import order
from .._kind import Found, check_items
from .bits import Test, Values
from .design import Design, Factor, Meeting, Option, Rules
from .quick import Greedy, Wanted, meetings_of

_SEED = 1
# The steps of the shortest try, beside two for each item; others have twice as many, four times and so on.
_STEPS = 15_000
# Work is counted in looks at items: a step looks at each, and an option takes so many until it is read.
_LOOKS_OF_OPTION = 500
# The work where no time is given: some ten seconds of a processor.
_MOST_LOOKS = 2_500_000_000
# So many tests are looked at, at most, for a design that is shorter by one, and each of these takes as long as so many
# looks.
_TESTS_LOOKED_AT, _LOOKS_OF_TEST = 60_000, 1_000


@dataclass(frozen=True)
class Few:
    """A design of `tests` tests: its problem and the places of the options that make it up.

    The problem is that of this design alone: what comes together, each in the first test that has it. least: fewer
    tests than these aren't enough. reason: where `tests` are the least, why.
    """

    problem: Problem[Option]
    numbers: list[int]
    tests: int
    least: int
    reason: str

    def found(self, seconds: float | None) -> Found:
        """What a command shows; seconds: how long it looked, where that was given."""
        if self.tests == self.least:
            remark = f"{_counted(self.tests)}; no fewer are enough: {self.reason}."
            return Found(self.problem, self.numbers, remark)
        fewer = f"{self.least} to {self.tests - 1}" if self.least < self.tests - 1 else f"{self.least}"
        known = f"whether {fewer} are enough isn't known"
        if seconds is None:
            remark = f"{_counted(self.tests)}, the fewest that were found; {known}; --seconds S looks longer"
        else:
            remark = f"{_counted(self.tests)}, the fewest that were found in {seconds:g} seconds; {known}"
        return Found(self.problem, self.numbers, f"helgrothy: {remark}", is_proved=False)


def _counted(tests: int) -> str:
    return f"{tests} test{'' if tests == 1 else 's'}"


class Best:
    """The best design so far.

    tests: its tests. least: fewer than these aren't enough. reason: why.
    """

    def __init__(
        self,
        factors: Sequence[Factor],
        strength: int,
        meetings: Sequence[Meeting],
        rules: Rules,
        lines: Sequence[str],
        least: int,
        reason: str,
    ) -> None:
        """meetings: what has to come together. lines: those of the table, for the problem's comments."""
        self._factors = factors
        self._strength = strength
        self._meetings = meetings
        self._rules = rules
        self._lines = lines
        self.tests: list[Test] = []
        self.least, self.reason = least, reason

    def take(self, tests: list[Test], hear: Hear) -> None:
        """A better one."""
        self.tests = tests
        hear(best=_counted(len(tests)))

    def few(self) -> Few:
        """The design, as dlxcheck judges it to be one. Raises `ProgramFailed` where it does not."""
        problem = self._problem()
        options = problem.options
        is_allowed = not any(ban.items() <= test.items() for ban in self._rules.bans for test in self.tests)
        if not is_allowed or problem.check([options]) != [True]:
            raise ProgramFailed("dlxcheck", 0, "the tests that were found are no design")
        reason = self.reason if len(self.tests) == self.least else ""
        return Few(problem, list(range(len(options))), len(self.tests), self.least, reason)

    def _problem(self) -> Problem[Option]:
        where: dict[Meeting, int] = {}
        for number, test in enumerate(self.tests):
            for meeting in meetings_of(test, self._strength):
                where.setdefault(meeting, number)
        check_items(len(self._meetings) + len(self.tests) * (1 + len(self._factors)))
        names = [factor.name for factor in self._factors]
        # Where values never come together no test is left with a factor that may have any value.
        wholes = [(f"test{number}", number) for number in range(1, len(self.tests) + 1)] if self._rules else []
        strength = "" if self._strength == 2 else f" --strength {self._strength}"
        return Problem(
            [*(whole for whole, _ in wholes), *map(self._item, self._meetings)],
            [f"t{number}/{name}" for number in range(1, len(self.tests) + 1) for name in names],
            [
                *(self._option(whole, number, self.tests[number - 1].items()) for whole, number in wholes),
                *(self._option(self._item(meeting), where[meeting] + 1, meeting) for meeting in self._meetings),
            ],
            comments=[
                f"helgrothy make tests FACTORS --tests {len(self.tests)}{strength}",
                "Values that come together in a test N; its factors tN/FACTOR have values as colours. The factors:",
                *self._lines,
            ],
        )

    def _item(self, meeting: Meeting) -> tuple[str, ...]:
        return tuple(f"{self._factors[one].name}={self._factors[one].values[value]}" for one, value in meeting)

    def _option(self, held: Hashable, number: int, values: Iterable[tuple[int, int]]) -> Option:
        uses: Option = {held: None}
        for one, value in values:
            uses[f"t{number}/{self._factors[one].name}"] = self._factors[one].colours[value]
        return uses


def fewest(factors: Sequence[Factor], strength: int, seconds: float | None, hear: Hear = unheard) -> Best:
    """The design of the fewest tests that is found in the time; without a time in some ten seconds, and then the same
    on every machine.

    Raises `ValueError` for more than a problem takes, and `OutOfTime` where the time isn't enough for any.
    """
    deadline = None if seconds is None else time.monotonic() + seconds
    model = Design(factors, None, strength)
    lines = [" ".join([factor.name, *factor.values]) for factor in factors]
    best = Best(factors, strength, model.meetings, Rules(), lines, model.least, model.reason)
    search = _Search(model, best, deadline, hear)
    search.begin()
    try:
        search.run()
    except OutOfTime:
        pass
    return best


class _Search:
    """A search for better and better designs."""

    def __init__(self, model: Design, best: Best, deadline: float | None, hear: Hear) -> None:
        self._model = model
        self._best = best
        self._deadline = deadline
        self._hear = hear
        self._rng = random.Random(_SEED)
        self._values = Values(model.factors)
        self._wanted = Wanted(self._values, model.strength, model.meetings)
        self._lines: _Lines | None = None
        self._looks = _MOST_LOOKS
        self._tried: set[int] = set()

    def begin(self) -> None:
        """The first design. Raises `OutOfTime`."""
        self._take(Greedy(self._wanted, self._deadline, self._rng).design())

    def _take(self, tests: Sequence[int]) -> None:
        self._best.take(_in_order(self._model, map(self._values.test, tests)), self._hear)

    def run(self) -> None:
        """Searches until the best is the least. Raises `OutOfTime` where time or work is over before."""
        best = self._best
        for turn in itertools.count(1):
            self._shorten(_length(turn) * _TESTS_LOOKED_AT)
            low = at = best.least
            while low < len(best.tests):
                if not self._finds(at, _length(turn)):
                    low = at + 1
                at = (low + len(best.tests)) // 2
            if best.least == len(best.tests):
                return

    def _shorten(self, most_looks: int) -> None:
        """Makes the best design shorter. Raises `OutOfTime`."""
        from .shorten import Shorter

        self._hear(at_work=["helgrothy"])
        shorter = Shorter(self._wanted, self._deadline, self._rng)
        while len(self._best.tests) > self._best.least:
            before = shorter.looks
            found = shorter.fewer([self._values.bits(test) for test in self._best.tests], most_looks)
            self._work((shorter.looks - before) * _LOOKS_OF_TEST)
            if found is None:
                return
            self._take(found)

    def _work(self, looks: int) -> None:
        """Where no time is given the work is bounded. Raises `OutOfTime`."""
        if self._deadline is None:
            self._looks -= looks
            if self._looks < 0:
                raise OutOfTime("no design was found in so many steps")

    def _finds(self, count: int, length: int) -> bool:
        """Whether a try of this length finds so many tests. Raises `OutOfTime`."""
        if self._lines is None:
            self._lines = _Lines(Design(self._model.factors, len(self._best.tests), self._model.strength))
        steps = length * _STEPS + 2 * self._lines.items
        rng = self._rng if count in self._tried else None
        self._tried.add(count)
        text = self._lines.of(count, rng)
        self._work(steps * self._lines.items + len(text) * _LOOKS_OF_OPTION)
        self._hear(at_work=["dlx-span"])
        tests = self._lines.search(text, steps, self._left())
        if tests is None:
            return False
        if not tests:
            self._best.least, self._best.reason = count + 1, f"there is no design of {count}"
            return False
        self._best.take([tests.get(number, {}) for number in range(count)], self._hear)
        return True

    def _left(self) -> float | None:
        return None if self._deadline is None else max(self._deadline - time.monotonic(), 0.0)


def _length(number: int) -> int:
    """How long a try is: 1 1 2 1 1 2 4 1 1 2 1 1 2 4 8 .., so that each length has about the same time in all."""
    while number & (number + 1):
        number -= (1 << number.bit_length() - 1) - 1
    return (number + 1) >> 1


class _Lines:
    """The lines of a design's problem, and of those of its first tests alone, with names as short as can be."""

    def __init__(self, design: Design) -> None:
        self.items = len(design.meetings)
        names = map(bytes_of, codes())
        self._items = list(itertools.islice(names, self.items))
        self._places = [
            {factor: next(names) for factor in range(len(design.factors))} for _ in range(design.tests)
        ]
        most = max(len(factor.values) for factor in design.factors)
        values = [bytes_of(code) for code in itertools.islice(codes(), most)]
        # What a word of an option says: the test, the factor and its value.
        self._uses = {
            name + b":" + value: (test, factor, number)
            for test, places in enumerate(self._places)
            for factor, name in places.items()
            for number, value in enumerate(values[: len(design.factors[factor].values)])
        }
        words = {use: word for word, use in self._uses.items()}
        # The options of each test.
        self._options: list[list[bytes]] = [[] for _ in range(design.tests)]
        for item, meeting in zip(self._items, design.meetings):
            for test in design.tests_for(meeting):
                held = (words[test, factor, value] for factor, value in meeting)
                self._options[test].append(b" ".join([item, *held]))

    def of(self, count: int, rng: random.Random | None) -> list[bytes]:
        """The problem of so many tests, in a random order or in that of the design."""
        items = _ordered(self._items, rng)
        places = [name for test in self._places[:count] for name in test.values()]
        options = _ordered([option for test in self._options[:count] for option in test], rng)
        return [b" ".join([*items, b"|", *places]), *options]

    def search(self, lines: Sequence[bytes], steps: int, seconds: float | None) -> dict[int, Test] | None:
        """The tests of a solution by their numbers, none where there is no solution, or None where the steps weren't
        enough to know. Raises `OutOfTime`."""
        # Who makes problems alone doesn't wait for these.
        from ..._spans.record import of_text
        from ..._spans.rows import WHOLE

        text = b""
        with Run("dlx-span", ["2", "m1", str(steps), "-", "-"], (line + b"\n" for line in lines), seconds) as run:
            for chunk in run.chunks():
                text += chunk
                if b"\n2:\n" in text:
                    break
            else:
                if run.status() != 0:
                    raise run.failure()
                record = of_text(text, WHOLE, listed=True)
                if not record.solutions:
                    return None if record.branches else {}
        return self._read(text)

    def _read(self, text: bytes) -> dict[int, Test]:
        """The tests of the first solution of a listing."""
        tests: dict[int, Test] = {}
        _, _, listed = text.partition(b"\n1:\n")
        for line in itertools.takewhile(lambda line: line.startswith(b" "), listed.split(b"\n")):
            for test, factor, value in filter(None, map(self._uses.get, line.split(b" "))):
                tests.setdefault(test, {})[factor] = value
        return tests


def _ordered(lines: Sequence[bytes], rng: random.Random | None) -> Sequence[bytes]:
    return lines if rng is None else [lines[place] for place in order(len(lines), rng)]


def _in_order(model: Design, tests: Iterable[Test]) -> list[Test]:
    """The tests in the order of the model, which begins with one for each of the values of its first tests."""
    firsts: dict[int, Test] = {}
    rest: list[Test] = []
    for test in tests:
        if firsts.setdefault(model.first_test(test), test) is not test:
            rest.append(test)
    return [*(firsts[place] for place in sorted(firsts)), *rest]
