"""The definitions of `specs`."""
import re
from collections.abc import Iterator, Sequence
from dataclasses import dataclass, field
from pathlib import Path

from specs.entries import NAME, Entry, Key, Scope, joined

# The last line of a file's head: whether public contracts rest on the file, so that readers must believe it.
BELIEVED = "-- Public contracts rest on this file: readers must believe it."
NOT_BELIEVED = "-- No public contract rests on this file."
HEAD = re.compile(rf"(?:(?:abbrev|unfoldable) (?:pub )?|(?:pub )?(?:record|data) )({NAME})")


@dataclass
class Module:
    """A file of definitions: what its head says and the last line of that, its definitions, and the constructors of its
    data types by name."""

    name: str
    path: str
    sentence: str
    last_line: str
    scope: Scope
    definitions: list[Entry] = field(default_factory=list)
    constructors: dict[str, str] = field(default_factory=dict)

    def add(self, entry: Entry) -> None:
        self.definitions.append(entry)
        self.scope.names[entry.name] = entry.key
        if " data " in entry.text[0]:
            for one in re.findall(rf"^  ({NAME}) :", "\n".join(entry.text), re.M):
                self.constructors[one] = entry.name
                self.scope.names[one] = entry.key


def read_crate(top: Path, crate: str) -> Iterator[Module]:
    """The files of a crate's definitions, in the order in which `Lib.antt` names them."""
    specs = top / "crates" / crate / "specs"
    listed = re.findall(r"^pub mod (\w+)", (specs / "Lib.antt").read_text(encoding="utf-8"), re.M)
    files = [(path, path.relative_to(specs).with_suffix("").parts) for path in sorted(specs.rglob("*.antt"))]
    for path, parts in sorted(files, key=lambda file: listed.index(file[1][0]) if file[1][0] in listed else -1):
        yield read_module(path, str(path.relative_to(top)), ".".join(["Rattle", crate, "specs", *parts]))


def read_module(path: Path, shown: str, name: str) -> Module:
    lines = path.read_text(encoding="utf-8").splitlines()
    first = next((at for at, line in enumerate(lines) if not line.startswith("--")), len(lines))
    last = lines[first - 1] if first else ""
    said = [line for line in lines[:first] if line not in (BELIEVED, NOT_BELIEVED)]
    module = Module(name, shown, joined(said), last, Scope())
    module.scope.take_imports(lines)
    for above, start, end in cut_definitions(lines, shown):
        key = (name, defined_by(lines[start]))
        module.add(Entry(key, shown, start + 1, lines[above:start], lines[start:end], []))
    return module


def defined_by(line: str) -> str:
    """The name that a definition's first line gives; none where it isn't one."""
    found = HEAD.match(line)
    return found[1] if found else ""


def cut_definitions(lines: Sequence[str], path: str) -> Iterator[tuple[int, int, int]]:
    """Where the comment above each definition starts, the definition itself, and where it ends: at an empty line, or at
    the comment above the next one."""
    heads = [at for at, line in enumerate(lines) if defined_by(line)]
    for start, behind in zip(heads, [*heads[1:], len(lines)]):
        above = start
        while lines[above - 1].startswith("--"):
            above -= 1
        end = next((at for at in range(start, behind) if not lines[at]), behind)
        while lines[end - 1].startswith("--"):
            end -= 1
        for line in lines[end:behind]:
            if line and not line.startswith(("--", "use ", "pub use ", "pub mod ")):
                raise SystemExit(f"believed: {path} has a line of no definition: {line}")
        yield above, start, end


def equations(entry: Entry) -> list[str]:
    """The head of a definition, with the fields or constructors that it has, and then its equations."""
    parts: list[list[str]] = []
    for line in entry.text:
        if line.startswith("--"):
            continue
        if not parts or line[0] not in " })]":
            parts.append([])
        parts[-1].append(re.sub(r"(^|\s)--.*", "", line))
    return ["\n".join(part) for part in parts]


def is_table(entry: Entry) -> bool:
    """Whether a definition has a line for each variant of a type, and so is read as a list."""
    rows = equations(entry)[1:]
    return len(rows) > 1 and all(re.fullmatch(rf"{NAME} [A-Z]\w* = .*", row) for row in rows)


def bound_in(text: str) -> set[str]:
    """The names that a text binds: in telescopes, functions, `let`, and the cases of an `elim`."""
    groups = re.findall(rf"[({{]((?:{NAME}\s+)+):\s", text) + re.findall(r"λ ([^.()]*)\.", text)
    groups += re.findall(rf"\blet ({NAME})", text) + re.findall(r"[\[|]([^\[\]|↦]*)↦", text)
    return {name for group in groups for name in re.findall(NAME, group)}


def without_labels(text: str) -> str:
    """A text without the names of the fields that its records give."""
    return re.sub(rf"([{{;]|^)(\s*){NAME}(\s*=\s)", r"\1\2\3", text, flags=re.M)


def cited_by_definition(entry: Entry, scope: Scope, constructors: set[str]) -> list[Key]:
    head, *rest = equations(entry)
    cited = cited_by_head(head, scope)
    for text in rest:
        cited += cited_by_equation(text, scope, constructors)
    return cited


def cited_by_head(text: str, scope: Scope) -> list[Key]:
    """What a definition's type cites, or its fields. A field is bound in the ones behind it."""
    head, *fields = re.split(r"\n  (?:pub )?(?=[^\W\d])", text)
    bound = bound_in(head)
    cited = scope.cited(HEAD.sub("", head), bound)
    for one in fields:
        name, _, of_type = one.partition(" :")
        cited += scope.cited(of_type, bound | bound_in(of_type))
        bound |= set(name.split())
    return cited


def cited_by_equation(text: str, scope: Scope, constructors: set[str]) -> list[Key]:
    """What an equation cites. A name on its left is a constructor or is bound."""
    left, _, right = re.sub(r"\s=(\s|$)", "\0", text, count=1).partition("\0")
    patterns = re.findall(NAME, left)[1:]
    bound = {word for word in patterns if word not in constructors and word[0].islower()}
    matched = scope.cited(" ".join(word for word in patterns if word not in bound))
    return matched + scope.cited(without_labels(right), bound | bound_in(right))
