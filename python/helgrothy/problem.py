"""Exact cover problems over items of any kind."""

from __future__ import annotations

import io
import time
import warnings
from collections import Counter
from collections.abc import Callable, Generator, Hashable, Iterable, Iterator, Mapping, Sequence
from functools import partial
from numbers import Integral
from typing import IO, TYPE_CHECKING, Any, Generic, NoReturn, TypeVar, Union, overload

from ._run import counter
from ._run.programs import Ending, Run
from ._run.solution import Listed, Solution
from ._run.stream import Outcome, Solutions, check_numbers, sooner
from ._run.wire import OfListing, Wire
from ._text import listing as listings
from ._text.listing import Null
from ._text.names import colour_names, item_names
from ._text.shown import bytes_of, text_of
from ._text.syntax import MOST_ITEMS, MOST_USES, ONCE, Bounds, Nearest, Sheet, bounds_fault, read
from .errors import ListingFault, NoPicture, OutOfTime, ProblemFault, ProgramFailed

if TYPE_CHECKING:
    from concurrent.futures import Executor

    from ._run.cheapest import Cheapest
    from ._spans import Progress
    from .cost import Cost
    from .draw import Drawing, Look, Picture
    from .given import Given, Which

_HASHABLE = "items and colours are hashable"
# One of so many solutions is printed where they are counted for a time.
_NUMBERED = 1000
Option = TypeVar("Option", bound=Iterable[Hashable])
BoundsLike = Union[None, int, tuple[int, int]]


class Problem(Generic[Option]):
    """Items, and options that hold them.

    items: the primary items, each to be held exactly once; or a mapping that gives each one its bounds: None for
        once, `v` for exactly v times, `(u, v)` for at least u and at most v times.
    secondary: items that are held at most once, or by any number of options that give them the same colour. True
        takes all items of the options that aren't primary.
    options: each an iterable of items, or a mapping from items to colours, None for an item without one.
        `add_option` adds one later.
    comments: lines of text that stand above the problem when it is written.

    Items and colours are any hashable values, equal ones being the same. An option without a primary item is in no
    solution, which a warning says. Raises `ProblemFault` where an item is unknown, twice in an option, named twice,
    and so on; it says in which option.

    What was given is kept as these attributes:

        items: dict[Hashable, Bounds]
        secondary: dict[Hashable, None]
        options: Options[Option]
        comments: tuple[str, ...]
        pattern: Look | None

    `options` is a list that only `add_option` makes longer. `pattern` may be set to a `Pattern` of `helgrothy.draw` or
    a `Table` of `helgrothy.table`, by which solutions are drawn from then on.

    >>> Problem("abc", options=["ab", "c", "a", "bc"]).count()
    2
    """

    items: dict[Hashable, Bounds]
    secondary: dict[Hashable, None]
    options: Options[Option]
    comments: tuple[str, ...]
    pattern: Look | None

    def __init__(
        self,
        items: Mapping[Any, BoundsLike] | Iterable[Hashable],
        secondary: Iterable[Hashable] | bool = (),
        options: Iterable[Option] = (),
        *,
        comments: Iterable[str] = (),
    ) -> None:
        self.comments = _comment_lines(comments)
        self.items = {}
        self.secondary = {}
        self.options = Options()
        self.pattern = None
        others = () if secondary is True else secondary
        for what, given in (("items", items), ("secondary", others), ("options", options)):
            if not isinstance(given, Iterable) and given is not False:
                raise _fault("", f"bad {what}", f"{given} is no iterable")
        self._takes_rest = secondary is True
        self._nearest = Nearest()
        self._use_count = 0
        self._colours: dict[Hashable, None] = {}
        # Names of items and colours are made when they are first asked for.
        self._item_names: dict[Hashable, str] | None = None
        self._colour_names: dict[Hashable, str] | None = None
        self._take_items(items, () if isinstance(secondary, bool) else secondary)
        for option in options:
            self._take(option)

    def _take_items(
        self, items: Mapping[Any, BoundsLike] | Iterable[Hashable], secondary: Iterable[Hashable]
    ) -> None:
        pairs: Iterable[tuple[Hashable, BoundsLike]]
        pairs = items.items() if isinstance(items, Mapping) else ((item, None) for item in items)
        for item, bounds in pairs:
            self._check_name(item)
            self.items[item] = _bounds(item, bounds)
        for item in secondary:
            self._check_name(item)
            self.secondary[item] = None
        if not self.items:
            raise _fault("", "no items")
        if len(self.items) + len(self.secondary) > MOST_ITEMS:
            raise _fault("", "too many items")

    def _check_name(self, item: Hashable) -> None:
        if not _is_hashable(item):
            raise _fault(item, "bad name", _HASHABLE)
        if item in self.items or item in self.secondary:
            raise _fault(item, "name repeated")

    def add_option(self, option: Option) -> int:
        """Adds an option after the others; returns its number in `options`, from 0 on. Raises `ProblemFault`."""
        self._take(option)
        return len(self.options) - 1

    def _take(self, given: Option) -> None:
        number = len(self.options)
        if not isinstance(given, Iterable):
            raise _fault(given, "bad option", "an option is an iterable of items, or a mapping", number)
        # What can be gone through only once is kept as a tuple.
        option: Any = tuple(given) if isinstance(given, Iterator) else given
        try:
            rest, colours = self._check_option(option, number)
        except TypeError:
            for item, colour in self._pairs(option):
                if not _is_hashable(item):
                    raise _fault(item, "unknown item", _HASHABLE, number) from None
                if not _is_hashable(colour):
                    raise _fault(colour, "bad colour", _HASHABLE, number) from None
            raise
        if rest:
            if len(self.items) + len(self.secondary) + len(rest) > MOST_ITEMS:
                raise _fault("", "too many items", option=number)
            self.secondary.update(rest)
            self._item_names = None
        if any(colour not in self._colours for colour in colours):
            self._colours.update(colours)
            self._colour_names = None
        list.append(self.options, option)

    def _check_option(self, option: Option, number: int) -> tuple[dict[Hashable, None], dict[Hashable, None]]:
        """Looks at an option's items; those that become secondary by it, and its colours."""
        has_primary = False
        seen = set()
        rest: dict[Hashable, None] = {}
        colours: dict[Hashable, None] = {}
        for item, colour in self._pairs(option):
            is_primary = item in self.items
            if not is_primary and item not in self.secondary:
                if not self._takes_rest:
                    raise _fault(item, "unknown item", self._hint(item, option), number)
                rest[item] = None
            if item in seen:
                raise _fault(item, "item repeated in option", option=number)
            if colour is not None:
                if is_primary:
                    raise _fault(item, "colour on a primary item", option=number)
                colours[colour] = None
            seen.add(item)
            has_primary = has_primary or is_primary
        if has_primary:
            if self._use_count + len(seen) > MOST_USES:
                raise _fault("", "too many uses", option=number)
            self._use_count += len(seen)
        else:
            warnings.warn(f"option {number} has no primary item, so it is in no solution", stacklevel=4)
        return rest, colours

    def _hint(self, item: Hashable, option: Option) -> str:
        """What may have been meant by an unknown item."""
        other = next((one for one in (*self.items, *self.secondary) if str(one) == str(item)), item)
        if type(other) is not type(item):
            return f"here of type {type(item).__name__}, among the items of type {type(other).__name__}"
        if isinstance(option, str):
            return "a text is an option of its letters; split it"
        names = [one for one in (*self.items, *self.secondary) if isinstance(one, str)]
        return self._nearest.question(item, names) if isinstance(item, str) else ""

    @staticmethod
    def _pairs(option: Iterable[Hashable]) -> Iterable[tuple[Hashable, Hashable | None]]:
        """An option's items, each with its colour or None."""
        if isinstance(option, (dict, Mapping)):
            return option.items()
        return ((item, None) for item in option)

    @classmethod
    def parse(cls, text: str | bytes, kind: int = 3) -> Problem[dict[str, str | None]]:
        """The problem of a text, as the program dlx`kind` reads it; its options are mappings.

        Options that are ignored are left out. Raises `ProblemFault`, the one that the program would report.
        """
        return cls._of_sheet(read(bytes_of(text) if isinstance(text, str) else text, kind, most_faults=1))

    @classmethod
    def _of_sheet(cls, sheet: Sheet) -> Problem[dict[str, str | None]]:
        """The problem of a text that was read. Raises `ProblemFault`, the first one of the sheet."""
        if sheet.faults:
            raise sheet.faults[0]
        items = {item.name: item.bounds for item in sheet.items.values() if item.bounds is not None}
        secondary = [item.name for item in sheet.items.values() if item.bounds is None]
        problem: Problem[dict[str, str | None]] = Problem(
            items, secondary, comments=(text for _, text in sheet.comments)
        )
        # The reader has looked at the names and the options.
        problem._item_names = {name: name for name in (*items, *secondary)}
        uses = [option.uses for option in sheet.options]
        list.extend(problem.options, uses)
        problem._use_count = sum(map(len, uses))
        problem._colours = {colour: None for option in uses for colour in option.values() if colour is not None}
        return problem

    @property
    def kind(self) -> int:
        """Which program the problem is for: 3 where an item has bounds, else 2 where an option has a colour, else 1."""
        if any(bounds != ONCE for bounds in self.items.values()):
            return 3
        return 2 if self._colours else 1

    def name(self, item: Hashable) -> str:
        """An item's name in the problem's text: the item itself where it is a legal name. Raises `KeyError`."""
        return self._names[item]

    @property
    def _names(self) -> dict[Hashable, str]:
        if self._item_names is None:
            self._item_names = item_names([*self.items, *self.secondary])
        return self._item_names

    @property
    def colours(self) -> dict[Hashable, str]:
        """The colours, each with its name."""
        if self._colour_names is None:
            self._colour_names = colour_names(self._colours)
        return self._colour_names

    @property
    def item_names(self) -> list[str]:
        """The names of the primary items."""
        return [self._names[item] for item in self.items]

    @property
    def secondary_names(self) -> list[str]:
        """The names of the secondary items."""
        return [self._names[item] for item in self.secondary]

    def _uses(self, option: Iterable[Hashable]) -> dict[str, str | None]:
        """The names of an option's items, each with its colour's name or None. Raises `ProblemFault`."""
        names, colours = self._names, self.colours
        try:
            return {
                names[item]: None if colour is None else colours[colour] for item, colour in self._pairs(option)
            }
        except KeyError:
            item, colour = next((i, c) for i, c in self._pairs(option) if i not in names or c not in (None, *colours))
            if item not in names:
                raise _fault(item, "unknown item") from None
            raise _fault(item, "unknown colour", str(colour)) from None

    def line(self, option: Iterable[Hashable]) -> str:
        """An option as a line of the problem's text. Raises `ProblemFault`."""
        return " ".join(name if colour is None else f"{name}:{colour}" for name, colour in self._uses(option).items())

    def _lines(self) -> Iterator[str]:
        """The lines of the problem's text, without their ends."""
        for comment in self.comments:
            yield f"| {comment}"
        yield self._item_line(self._names)
        for option in self.options:
            yield self.line(option)

    def _item_line(self, names: Mapping[Hashable, str]) -> str:
        """The item line with these names."""
        tokens = [_item_token(names[item], bounds) for item, bounds in self.items.items()]
        behind = [names[item] for item in self.secondary]
        return " ".join(tokens + (["|", *behind] if behind else []))

    @property
    def text(self) -> str:
        """The problem as the programs read it."""
        return "".join(f"{line}\n" for line in self._lines())

    @overload
    def solve(
        self,
        limit: int | None = None,
        spacing: int = 1,
        *,
        nulls: bool = False,
        seconds: float | None = None,
        seed: int | None = None,
        given: Iterable[Which] | None = None,
        forbidden: Iterable[Which] | None = None,
        cost: None = None,
    ) -> Solutions[Option]: ...

    @overload
    def solve(
        self,
        *,
        cost: Sequence[Cost] | str,
        seconds: float | None = None,
        given: Iterable[Which] | None = None,
        forbidden: Iterable[Which] | None = None,
    ) -> Cheapest[Option]: ...

    def solve(
        self,
        limit: int | None = None,
        spacing: int = 1,
        *,
        nulls: bool = False,
        seconds: float | None = None,
        seed: int | None = None,
        given: Iterable[Which] | None = None,
        forbidden: Iterable[Which] | None = None,
        cost: Sequence[Cost] | str | None = None,
    ) -> Solutions[Option]:
        """The solutions, one by one as they are found, each a list of options as they were given.

        limit: stop after so many solutions. spacing: give each one whose number is a multiple of it. nulls: have
        the choices of none in the lists, as `Null`. seconds: raise `OutOfTime` where it takes longer.

        seed: in a random order, the same for the same number on every machine and in every Python. With a limit the
        search begins anew, ever longer, until so many are found in one order of the options.

        given, forbidden: options that each solution has, and that none has. Each is said by its number, as it was
        passed to the problem, or as a text of items, `"r1 c2"`: of the given ones one option alone has these, and all
        that have them are forbidden. Raises `ValueError` for what says no option.

        cost: the solution of least cost alone, a `cost.Least` with its `cost`, by a number for each option in their
        order, or by a text of names and numbers as `helgrothy solve --cost` takes it. Raises `cost.NotLeast`, an
        `OutOfTime` with the `best` one, where it isn't proved in the time that none costs less; `TableFault` for a
        wrong text; and `engines.Claimed`.

        A `Solution` is read when it is first touched. Nothing but one is held in memory, and the program ends where
        the caller stops. Raises `ProgramNotFound`, `ProgramFailed` and `OutOfTime`.
        """
        if seed is None and given is None and forbidden is None and cost is None:
            return self._search(None, limit, spacing, nulls, seconds)
        asked = self._given(given, forbidden)
        if cost is not None:
            if (limit in (None, 1), spacing, nulls, seed) != (True, 1, False, None):
                raise ValueError("the solution of least cost is one: without limit, spacing, nulls and seed")
            return asked.least(cost, seconds)
        return asked.solve(limit, spacing, nulls=nulls, seconds=seconds, seed=seed)

    def _given(self, options: Iterable[Which] | None, others: Iterable[Which] | None) -> Given[Option]:
        """The problem with some options and without others. Raises `ValueError`."""
        from .given import Given, forbidden, given

        held = given(self, () if options is None else options)
        dropped = forbidden(self, () if others is None else others)
        both = next((place for place in held if place in dropped), None)
        if both is not None:
            raise ValueError(f"option {both} is both given and forbidden: {self.line(self.options[both])}")
        return Given(self, held, dropped)

    def _search(
        self,
        places: Sequence[int] | None = None,
        limit: int | None = None,
        spacing: int = 1,
        nulls: bool = False,
        seconds: float | None = None,
        meanwhile: Callable[[Run], object] | None = None,
    ) -> Solutions[Option]:
        """The solutions that have options of these places alone, searched in their order.

        meanwhile: is called some times a second while the program finds none.
        """
        check_numbers(limit, spacing)

        def begin(outcome: Outcome) -> Generator[Solution[Option], None, None]:
            wire = Wire(self, nulls, places)
            give: Callable[[bytes], Solution[Any]] = partial(Solution, wire)
            with Run(f"dlx{self.kind}", _words(limit, spacing), _ended(wire.lines), seconds) as run:
                try:
                    is_cut = yield from listings.stream(
                        run.chunks(meanwhile), give, lambda lines: self._is_whole(wire.all(lines)), outcome.count
                    )
                    ending = Ending(run)
                except OutOfTime as error:
                    error.found = outcome.found * spacing
                    raise
                if is_cut:
                    raise run.failure()
                outcome.end(ending.total, ending.complete)

        def again(most: float) -> Solutions[Option]:
            return self._search(places, limit, spacing, nulls, sooner(seconds, most))

        return Solutions(begin, again)

    def _wire(self, places: Sequence[int] | None) -> tuple[Iterator[bytes], Callable[[bytes], Solution[Any]]]:
        """The options of these places for a program, and what makes solutions of the lines that it prints."""
        wire = Wire(self, places=places)
        return _ended(wire.lines), partial(Solution, wire)

    def _is_whole(self, choices: Iterable[Option | Null]) -> bool:
        """Whether choices are all of a solution: no primary item is left."""
        held: Counter[Hashable] = Counter()
        for choice in choices:
            if isinstance(choice, Null):
                held[choice.item] = self.items[choice.item].high
            else:
                held.update(item for item in choice if item in self.items)
        return all(held[item] >= bounds.high for item, bounds in self.items.items())

    def listed(
        self, listing: str | bytes | Iterable[str] | Iterable[bytes], *, nulls: bool = False
    ) -> Iterator[Listed[Option]]:
        """The solutions of a listing of the problem's text, one by one, each with the number of its header.

        The listing is text as the programs print it, or its lines, such as a file gives them. nulls: have the choices
        of none in the lists, as `Null`. Whether these are solutions isn't judged. Where options are alike their lines
        are too, and the last of them stands for all. Raises `ListingFault`.
        """
        text = bytes_of(listing) if isinstance(listing, str) else listing
        lines: Iterable[Any] = io.BytesIO(text) if isinstance(text, bytes) else text
        reader = OfListing(self, nulls)
        for found in reader.read(bytes_of(line) if isinstance(line, str) else line for line in lines):
            yield Listed(reader, found, found.number)

    def count(
        self,
        limit: int | None = None,
        *,
        seconds: float | None = None,
        jobs: int | None = None,
        executor: Executor | None = None,
        progress: Callable[[Progress], object] | None = None,
        given: Iterable[Which] | None = None,
        forbidden: Iterable[Which] | None = None,
    ) -> int:
        """How many solutions there are, or `limit` where there are as many or more.

        Without a limit dlx-count runs beside the search, and the first that ends gives the number. given, forbidden:
        as of `solve`.

        jobs: search by up to so many processors at once. executor: search by the workers of an executor of
        `concurrent.futures`, such as Dask's, of which there are `jobs`. progress: gets now and then how far the
        search is. With any of these it is cut into spans, and there is no limit.

        Raises `ProgramNotFound`, `ProgramFailed` and, where it takes longer than `seconds`, `OutOfTime`, whose `found`
        is then a number that was reached at least; with workers also `SearchFault`, where these can't do it.
        """
        if given is not None or forbidden is not None:
            inner = self._given(given, forbidden).inner
            return inner.count(limit, seconds=seconds, jobs=jobs, executor=executor, progress=progress)
        if jobs is not None or executor is not None or progress is not None:
            return self._count_spans(limit, seconds, jobs, executor, progress)
        if limit is None:
            return self._count(seconds).total
        check_numbers(limit, 1)
        # Where the time may end first, a few solutions are printed for their numbers.
        words = _words(limit, 0 if seconds is None else _NUMBERED)
        found = 0
        with Run(f"dlx{self.kind}", words, _ended(self._lines()), seconds) as run:
            try:
                line = b""
                for chunk in run.chunks():
                    found = listings.last_number(line + chunk) or found
                    line = (line + chunk).rpartition(b"\n")[2]
                return Ending(run).total
            except OutOfTime as error:
                error.found = found
                raise

    def solution(self, number: int, *, seconds: float | None = None) -> Solution[Option] | None:
        """The solution of this number of those that `solve` gives, from 1 on, or None where there are fewer.

        Those before it aren't made where dlx-count is first, which counts the branches that they are in. Raises
        `ProgramNotFound`, `ProgramFailed` and `OutOfTime`.
        """
        from ._run import numbered

        return next(iter(numbered.solve(self, number, seconds)), None)

    def random(self, seed: int | None = None, *, seconds: float | None = None) -> Solution[Option] | None:
        """One of all solutions, each as likely as any other, or None where there is none.

        They are counted, and a number of them is drawn: the same one for the same seed, and without one another each
        time. Raises `ProgramNotFound`, `ProgramFailed` and `OutOfTime`.
        """
        from ._run import numbered

        begun = time.monotonic()
        total = self._count(seconds).total
        if total == 0:
            return None
        left = None if seconds is None else max(0.0, seconds - (time.monotonic() - begun))
        return next(iter(numbered.solve(self, numbered.lot(total, seed), left, total)))

    def occurrences(self, *, seconds: float | None = None, jobs: int | None = None) -> list[int]:
        """Of each option in how many solutions it is, in the order of `options`.

        Where there are few solutions dlx-count goes over them once. Otherwise it counts for each option those that have
        it, by up to `jobs` processes at once (as many as there are processors). Raises `ProgramNotFound`,
        `ProgramFailed` and `OutOfTime`.
        """
        from ._run import occurrences

        return occurrences.find(self, seconds, jobs).by_option

    def _count(self, seconds: float | None, spacing: int | None = None, **how: Any) -> counter.Count:
        """How many solutions there are, and which program counted them; `how` is for `counter.count`.

        spacing: the search prints each solution whose number is a multiple of it.
        """
        words = _words(None, spacing or (0 if seconds is None else _NUMBERED))
        return counter.count(b"".join(_ended(self._lines())), self.kind, words, seconds, **how)

    def _count_spans(
        self,
        limit: int | None,
        seconds: float | None,
        jobs: int | None,
        executor: Executor | None,
        progress: Callable[[Progress], object] | None,
    ) -> int:
        from . import _spans as spans

        if limit is not None:
            raise ValueError("a search by jobs or an executor has no limit")
        if jobs is not None and jobs < 1:
            raise ValueError("jobs must be at least 1")
        return spans.count(b"".join(_ended(self._lines())), self.kind, jobs, executor, progress, seconds)

    def check(self, listing: str | bytes | IO[str] | IO[bytes] | Iterable[Iterable[Any]]) -> list[bool]:
        """Of each solution whether it is one, as dlxcheck judges it, which holds all of them in memory.

        The listing is text as the programs print it (or a file that gives it), or solutions as `solve` gives them.
        Whether these are all, and whether one comes twice, isn't judged. Raises `ListingFault` for a text that is no
        listing and for what is no option of the problem, `ProblemFault` for an item that isn't the problem's.
        """
        given: Any = listing.read() if hasattr(listing, "read") else listing
        if not isinstance(given, (str, bytes)):
            given = b"".join(self._listing(given))
        text = bytes_of(given) if isinstance(given, str) else given
        import tempfile

        with tempfile.NamedTemporaryFile(suffix=".dlx") as file:
            file.writelines(_ended(self._lines()))
            file.flush()
            with Run("dlxcheck", [file.name, str(self.kind)], [text]) as run:
                verdicts = b"".join(run.chunks()).splitlines()
                if run.status() not in (0, 5):
                    raise _listing_fault(run.failure(), text)
        return [verdict.endswith(b": cover") for verdict in verdicts]

    def clauses(self, *, seconds: float | None = None) -> bytes:
        """Clauses that each solution makes true, in DIMACS CNF, as dlx-none prints them.

        Where a SAT solver writes a proof that no values make all of them true, `refute` takes it. Those of the module
        `export` are others, which have the same solutions as the problem. Raises `ProgramNotFound`, `ProgramFailed` and
        `OutOfTime`.
        """
        from ._run import refutation

        return refutation.clauses(self, seconds)

    def refute(
        self, proof: str | bytes | IO[str] | IO[bytes] | Mapping[Any, int], *, seconds: float | None = None
    ) -> bool:
        """Whether a proof shows that there is no solution, as dlx-none judges it, which is itself proved.

        The proof is in the format DRAT (or a file that gives it), as text or in its binary form, and of `clauses`, such
        as `cadical -q p.cnf p.drat` writes it. Or it is weights of items, which are whole numbers of up to nine digits:
        those above 0 count as often as their item has to be held, those below 0 as often as it may be. An option
        counts where the sum of its weights is above 0, and adds that. If the first sum is more than the other two
        there is no solution.

        False says only that the proof doesn't show it. Raises `ProblemFault` for a weight of an item that isn't the
        problem's, `ProgramNotFound`, `ProgramFailed` and `OutOfTime`.
        """
        from ._run import refutation

        if isinstance(proof, Mapping):
            return refutation.by_weights(self, proof, seconds)
        return refutation.by_proof(self, bytes_of(proof) if isinstance(proof, str) else proof, seconds)

    def _listing(self, solutions: Iterable[Iterable[Any]], first: int = 1) -> Iterator[bytes]:
        """Solutions as a listing. Its numbers of branches, (1 of 1), say nothing."""
        for number, solution in enumerate(solutions, first):
            yield b"%d:\n" % number
            for choice in solution:
                # A choice of none adds nothing, and beside an item named `null` its line may be an option's.
                if not isinstance(choice, Null):
                    yield bytes_of(f" {self.line(choice)} (1 of 1)\n")

    def draw(self, solution: Iterable[Any] = (), pattern: Look | None = None) -> Picture:
        """A picture of a solution, or of the problem as it stands before one. Raises `NoPicture`.

        The problems that `helgrothy.make` makes have pictures of their own; others are drawn by a pattern, which may
        be that of the problem.
        """
        return self._drawing(pattern)([self.line(choice) for choice in solution if not isinstance(choice, Null)])

    def _drawing(self, pattern: Look | None = None) -> Drawing:
        """Raises `NoPicture`."""
        from .draw import drawing_of

        pattern = pattern or self.pattern
        return drawing_of(self) if pattern is None else pattern.of(self)

    def _repr_svg_(self) -> str | None:
        """The problem before it is solved, for notebooks; None where it has no picture."""
        try:
            return self.draw().svg()
        except NoPicture:
            return None

    def __repr__(self) -> str:
        return f"<Problem of {len(self.items)} + {len(self.secondary)} items and {len(self.options)} options>"


def _fault(token: object, reason: str, hint: str = "", option: int | None = None) -> ProblemFault:
    """The fault of what was given in Python: of an option, else of an item or of all."""
    return ProblemFault(0, str(token), reason, hint, option)


def _bounds(item: Hashable, given: BoundsLike) -> Bounds:
    """The bounds of an item as they were given. Raises `ProblemFault`."""
    if given is None or given is ONCE:
        return ONCE
    pair: Any = (given, given) if isinstance(given, Integral) else given
    if not (isinstance(pair, (tuple, list)) and len(pair) == 2 and all(isinstance(one, Integral) for one in pair)):
        hint = "bounds are None, a number or two; items is a mapping, whose values are bounds: list(items) has its keys"
        raise _fault(item, "bad bound", hint)
    low, high = map(int, pair)
    reason = bounds_fault(low, high)
    if reason is not None:
        raise _fault(item, reason)
    return Bounds(low, high)


def _comment_lines(comments: Iterable[str]) -> tuple[str, ...]:
    lines = tuple(line for text in comments for line in text.split("\n"))
    for number, line in enumerate(lines, 1):
        try:
            reason = "NUL byte" if b"\0" in bytes_of(line) else None
        except UnicodeEncodeError:
            reason = "bad text"
        if reason is not None:
            raise _fault("", reason, f"line {number} of the comments")
    return lines


class Options(list[Option]):
    """A problem's options. One is added by the problem's `add_option`, which looks at it, and not here."""

    def append(self, *_: Any, **__: Any) -> NoReturn:
        raise TypeError("an option is added by add_option of its problem")

    extend = insert = __iadd__ = __imul__ = append

    def __setitem__(self, *_: Any, **__: Any) -> NoReturn:
        self.append()

    def __reduce__(self) -> tuple[Any, ...]:
        return Options, (list(self),)


def _is_hashable(value: object) -> bool:
    """Whether a value has a hash; a tuple has one only where its parts do."""
    try:
        hash(value)
    except TypeError:
        return False
    return True


def _item_token(name: str, bounds: Bounds) -> str:
    low, high = bounds
    if bounds == ONCE:
        return name
    return f"{low}|{name}" if low == high else f"{low}:{high}|{name}"


def _ended(lines: Iterable[str]) -> Iterator[bytes]:
    return (bytes_of(f"{line}\n") for line in lines)


def _words(limit: int | None, spacing: int) -> list[str]:
    """The arguments of a solver that print each solution whose number is a multiple of `spacing`, none of 0."""
    return ([f"m{spacing}"] if spacing else []) + ([f"t{limit}"] if limit is not None else [])


def _listing_fault(failed: ProgramFailed, listing: bytes) -> Exception:
    """The fault that dlxcheck reported of a listing; what else it failed with comes back as it is."""
    start, _, rest = failed.message.partition("Listing line ")
    number, _, reason = rest.partition(": ")
    if start or not number.isdigit():
        return failed
    lines = listing.split(b"\n")
    line = int(number)
    return ListingFault(line, text_of(lines[line - 1].strip()), reason.rstrip("."))
