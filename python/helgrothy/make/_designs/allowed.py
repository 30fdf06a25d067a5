"""Designs of few tests where some values never come together, and some tests exist already.

No search by options: tests are put together value by value, and then made fewer, one by one.
"""

from __future__ import annotations

import itertools
import random
import time
from collections.abc import Sequence

from ..._run.report import Hear, unheard
from ...errors import OutOfTime
from .._kind import check_items, numbered
from .bits import Values
from .design import Factor, Meeting, Rules
from .fewest import Best
from .quick import Greedy, Wanted
from .shorten import Shorter

_SEED = 1
# Where no time is given a better design is looked for with so many looks, some two seconds of a processor.
_MOST_LOOKS = 350_000
_EVER = 1 << 62


class Allowed:
    """What may come together: the combinations of `strength` values that are in a test without a forbidden one.

    least: a design has at least so many tests. reason: why.
    """

    def __init__(self, factors: Sequence[Factor], strength: int, rules: Rules) -> None:
        self.values = Values(factors, rules.bans)
        self.meetings: list[Meeting] = []
        self.least, self.reason = 0, ""
        for chosen in itertools.combinations(range(len(factors)), strength):
            levels = (range(len(factors[factor].values)) for factor in chosen)
            found = [tuple(zip(chosen, values)) for values in itertools.product(*levels)]
            may_be = [meeting for meeting in found if self.values.may_be(self.values.bits(dict(meeting)))]
            self.meetings += may_be
            if len(may_be) > self.least:
                self.least = len(may_be)
                self.reason = f"{_listed([factors[one].name for one in chosen])} {self.least} combinations of values"
            check_items(len(self.meetings))
        if not self.meetings:
            raise ValueError("no test may be: each has values that never come together")


def _listed(names: Sequence[str]) -> str:
    *most, last = names
    return f"{', '.join(most)} and {last} have" if most else f"{last} has"


def fewest(
    text: str,
    factors: Sequence[Factor],
    strength: int,
    rules: Rules,
    seconds: float | None,
    hear: Hear = unheard,
) -> Best:
    """The design of the fewest tests that is found in the time, which begins with the tests that exist; without a time
    until some seconds of a processor found no better one, and then the same on every machine.

    text: the table. Raises `ValueError` for more than a problem takes, and `OutOfTime`.
    """
    deadline = None if seconds is None else time.monotonic() + seconds
    allowed = Allowed(factors, strength, rules)
    wanted = Wanted(allowed.values, strength, allowed.meetings, rules.given)
    least, reason = allowed.least, allowed.reason
    if len(rules.given) > least:
        least, reason = len(rules.given), f"{len(rules.given)} are given"
    best = Best(factors, strength, allowed.meetings, rules, [line for _, line in numbered(text)], least, reason)
    rng = random.Random(_SEED)
    found: list[int] | None = Greedy(wanted, deadline, rng).design()
    shorter = Shorter(wanted, deadline, rng)
    try:
        while found is not None:
            best.take([*rules.given, *map(allowed.values.test, found)], hear)
            most = _MOST_LOOKS if deadline is None else _EVER
            found = shorter.fewer(found, most) if len(best.tests) > least else None
    except OutOfTime:
        pass
    return best
