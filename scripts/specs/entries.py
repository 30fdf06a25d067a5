"""What is read: definitions, and what the code declares, with what each cites."""
import re
from collections.abc import Iterable, Sequence
from dataclasses import dataclass, field
from typing import NamedTuple

# A definition by its module and name, or what stands in the code by its crate and name.
Key = tuple[str, str]

NAME = r"[^\W\d][\w']*"
CHAIN = re.compile(rf"(?<![\w'.])({NAME})((?:\.[\w']+)*)")
STRING = re.compile(r'"(?:\\.|[^"\\])*"')


@dataclass
class Entry:
    """A definition, or a type, a trait, a function or an impl of the code."""

    key: Key
    path: str
    line: int
    comment: list[str]
    text: list[str]
    cites: list[Key]
    has_contract: bool = False

    @property
    def name(self) -> str:
        return self.key[1]

    @property
    def sentence(self) -> str:
        return joined(self.comment)

    @property
    def is_definition(self) -> bool:
        return self.path.endswith(".antt")

    @property
    def is_worked(self) -> bool:
        return self.path.endswith("/Worked.antt")

    @property
    def is_inner(self) -> bool:
        return bool(re.search(r"/specs/inner[/.]", self.path))

    @property
    def size(self) -> int:
        """Its lines, without blank ones and comments."""
        return sum(1 for line in self.text if line.strip() and not line.lstrip().startswith("--"))


def joined(comment: Sequence[str]) -> str:
    """What a comment says, in one line."""
    return " ".join(line.strip().lstrip("-/").strip() for line in comment)


class Figures(NamedTuple):
    """How many definitions there are, and of how many lines, worked examples apart."""

    many: int
    lines: int
    worked: int
    worked_lines: int


def figures(entries: Iterable[Entry]) -> Figures:
    definitions = [one for one in entries if one.is_definition]
    plain = [one.size for one in definitions if not one.is_worked]
    worked = [one.size for one in definitions if one.is_worked]
    return Figures(len(plain), sum(plain), len(worked), sum(worked))


@dataclass
class Scope:
    """The names that a file or a block imports, and the modules that it calls by another name."""

    names: dict[str, Key] = field(default_factory=dict)
    modules: dict[str, str] = field(default_factory=dict)

    def take_imports(self, lines: Iterable[str]) -> None:
        for line in lines:
            names = re.match(r"\s*(?:pub |ghost )?use ([\w.]+)\.\{([^}]*)\}", line)
            module = re.match(r"\s*(?:pub |ghost )?use ([\w.]+) as (\w+)", line)
            if names:
                for one in names[2].split(","):
                    name, _, other = one.strip().partition(" as ")
                    self.names[other or name] = target(names[1], name)
            elif module:
                self.modules[module[2]] = module[1]

    def cited(self, text: str, bound: Iterable[str] = ()) -> list[Key]:
        """What a text cites, in order. What stands behind a dot is a field, unless a module stands before it."""
        keys = []
        for head, rest in CHAIN.findall(STRING.sub('""', text)):
            if head in bound:
                continue
            if head in self.modules and rest:
                keys.append(target(self.modules[head], rest[1:].split(".")[0]))
            elif head in self.names:
                keys.append(self.names[head])
        return keys


def target(module: str, name: str) -> Key:
    """What an import names: a definition, or the type of the code that is declared there or has this variant."""
    head, _, declared = module.partition(".specs.declared.")
    if declared:
        return head.split(".")[-1], [part for part in declared.split(".") if part != "TheVariants"][-1]
    return module, name
