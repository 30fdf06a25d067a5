"""Proof files as text: their lemmas and answers, the clauses of each, and the names that they use."""
import re
from collections import Counter
from collections.abc import Iterable, Iterator
from dataclasses import dataclass
from pathlib import Path

# A name is any run of characters other than spaces and these.
NAME = r"[^\s(){}.;,@\"«»]+"
SIGNATURE = re.compile(rf"^(\s*)((?:abbrev |pub |unfoldable |pattern )*)({NAME})(?: \{{[^}}]*\}})? :(?:\s|$)")
IMPORT = re.compile(r"^use ([^{]*)\.\{(.*)\}$")


@dataclass(frozen=True)
class Clause:
    """What stands left and right of the sign of equality."""

    head: str
    body: str

    @property
    def text(self) -> str:
        return f"{self.head} ={self.body}"


@dataclass(frozen=True)
class Proof:
    """A lemma or an answer: lines `start` to `end` of its file, with its clauses from `begin` on."""

    file: Path
    name: str
    marks: str
    start: int
    begin: int
    end: int
    indent: int
    opening: tuple[str, ...]
    clauses: tuple[Clause, ...]

    @property
    def length(self) -> int:
        return self.end - self.begin

    @property
    def lines(self) -> int:
        return self.end - self.start

    @property
    def is_definition(self) -> bool:
        return "abbrev" in self.marks or "unfoldable" in self.marks

    @property
    def is_answer(self) -> bool:
        return any("goal." in line for line in self.opening)


def indent_of(line: str) -> int:
    return len(line) - len(line.lstrip())


def code(text: str) -> str:
    """The text without comments and imports."""
    kept = (line for line in text.split("\n") if not re.match(r"\s*(--|(pub |unfoldable )*use )", line))
    return "\n".join(kept)


def words(text: str) -> Counter[str]:
    return Counter(re.findall(NAME, code(text)))


def named(text: str) -> list[str]:
    """The names in their order, once each, without those of fields."""
    found: list[str] = []
    for match in re.finditer(NAME, text):
        behind_dot = match.start() > 0 and text[match.start() - 1] == "."
        is_field = text[match.end() : match.end() + 3] == " = " and re.search(r"[{;]\s*$", text[: match.start()])
        if not behind_dot and not is_field:
            found.append(match.group(0))
    return list(dict.fromkeys(found))


def is_balanced(text: str) -> bool:
    return all(text.count(left) == text.count(right) for left, right in ("()", "[]", "{}"))


def closing(text: str, start: int) -> int | None:
    """The place of what closes the bracket at `start`."""
    depth = 0
    for place in range(start, len(text)):
        depth += (text[place] in "([{") - (text[place] in ")]}")
        if depth == 0:
            return place
    return None


def clause_of(text: str) -> Clause | None:
    depth = 0
    for place, char in enumerate(text):
        depth += (char in "({") - (char in ")}")
        around = text[place - 1 : place] + text[place + 1 : place + 2]
        if char == "=" and depth == 0 and not around.strip():
            return Clause(text[:place].rstrip(), text[place + 1 :])
    return None


def proofs_of(file: Path, lines: list[str]) -> Iterator[Proof]:
    at = 0
    while at < len(lines):
        match = SIGNATURE.match(lines[at])
        indent = indent_of(lines[at])
        if not match or indent > 2 or lines[at].lstrip().startswith("--"):
            at += 1
            continue
        name, here = match.group(3), at + 1

        def goes_on(place: int, closers: str = "") -> bool:
            if place >= len(lines) or not lines[place].strip():
                return False
            return indent_of(lines[place]) > indent or lines[place].strip()[0] in closers

        while goes_on(here):
            here += 1
        if here < len(lines) and re.match(rf"\s{{{indent}}}unfolding\b", lines[here]):
            here += 1
            while goes_on(here):
                here += 1
        begin, clauses = here, []
        starts = re.compile(rf"\s{{{indent}}}{re.escape(name)}(\s|$)")
        while here < len(lines) and starts.match(lines[here]) and not SIGNATURE.match(lines[here]):
            first, here = here, here + 1
            while goes_on(here, ")}]"):
                here += 1
            clauses.append(clause_of("\n".join(lines[first:here])))
        known = tuple(clause for clause in clauses if clause is not None)
        if known and len(known) == len(clauses):
            yield Proof(file, name, match.group(2), at, begin, here, indent, tuple(lines[at:begin]), known)
        at = max(here, at + 1)


def imports(lines: Iterable[str]) -> dict[str, str]:
    """The module of each name that is imported by its own."""
    found: dict[str, str] = {}
    for line in lines:
        match = IMPORT.match(line)
        for name in match.group(2).split(",") if match else ():
            found[name.strip().split(" as ")[-1]] = match.group(1)
    return found
