"""All definitions and public calls of the repository, and what each reaches."""
import re
from collections.abc import Iterable, Iterator, Sequence
from pathlib import Path

from specs.code import Code, exports, passed_on, read_source
from specs.definitions import Module, cited_by_definition, read_crate
from specs.entries import Entry, Key

# The constructors of std that definitions match on and that begin with a small letter.
STD_CONSTRUCTORS = {"zero", "suc", "true", "false"}


class Repository:
    def __init__(self, top: Path) -> None:
        self.crates = crates_with_definitions(top)
        modules = [module for crate in self.crates for module in read_crate(top, crate)]
        self.modules = {module.name: module for module in modules}
        self.files = {module.path: module for module in modules}
        code = Code()
        for crate in self.crates:
            for path in sorted((top / "crates" / crate / "src").rglob("*.rt")):
                code.read(read_source(top, path, crate, self.crates))
        self.entries = {one.key: one for module in modules for one in module.definitions}
        self.entries.update(code.types)
        self.passed_on = {(crate, name): home for crate in self.crates for name, home in passed_on(top, crate)}
        self.calls = [one for crate in self.crates for one in public_calls(top, crate, code)]
        self.link()

    def link(self) -> None:
        """Finds what each definition, type and call cites of what the repository has."""
        constructors = STD_CONSTRUCTORS.union(*(module.constructors for module in self.modules.values()))
        for module in self.modules.values():
            for one in module.definitions:
                one.cites = cited_by_definition(one, module.scope, constructors)
        for one in {id(one): one for one in [*self.entries.values(), *self.calls]}.values():
            homes = dict.fromkeys(self.home(key) for key in one.cites)
            one.cites = [key for key in homes if key in self.entries and key != one.key]

    def home(self, key: Key) -> Key:
        """The home of a definition or a type that a module or a library may only pass on; a constructor's data type."""
        if key in self.passed_on:
            return self.home(self.passed_on[key])
        module = self.modules.get(key[0])
        if module is None or key in self.entries:
            return key
        onward = module.scope.names.get(key[1])
        return self.home(onward) if onward else key

    def reached(self, roots: Iterable[Entry]) -> list[Entry]:
        """What these entries cite, however far down."""
        seen: dict[Key, Entry] = {}
        todo = [key for root in roots for key in root.cites]
        while todo:
            key = todo.pop()
            if key not in seen:
                seen[key] = self.entries[key]
                todo += self.entries[key].cites
        return list(seen.values())

    def calls_named(self, name: str) -> list[Entry]:
        """The calls of this name; else those of this type; else the methods of this name."""
        whole = [call for call in self.calls if call.name == name]
        of_type = [call for call in self.calls if owner(call) == name]
        methods = [call for call in self.calls if call.name.endswith(f"::{name}")]
        return whole or of_type or methods

    def code_in_order(self, entries: Iterable[Entry]) -> list[Entry]:
        """Those of these that are in the code: the lowest crate first, by files."""
        code = [one for one in entries if not one.is_definition]
        return sorted(code, key=lambda one: (self.crates.index(one.key[0]), one.path, one.line))

    def definitions_in_order(self, entries: Sequence[Entry]) -> list[tuple[Module, list[Entry]]]:
        """Definitions by files, each file after those that it uses, the lowest crate first."""
        by_path: dict[str, list[Entry]] = {}
        for one in sorted(entries, key=lambda entry: entry.line):
            if one.is_definition:
                by_path.setdefault(one.path, []).append(one)
        order: list[str] = []
        for path in self.files:
            self.put_behind(path, by_path, order)
        return [(self.files[path], by_path[path]) for path in order]

    def put_behind(self, path: str, by_path: dict[str, list[Entry]], order: list[str]) -> None:
        """Puts a file after those that its definitions cite."""
        if path in order or path not in by_path:
            return
        below = [self.entries[key].path for one in by_path[path] for key in one.cites]
        for other in below:
            if other != path:
                self.put_behind(other, by_path, order)
        order.append(path)


def crates_with_definitions(top: Path) -> list[str]:
    lines = (top / "crates.txt").read_text(encoding="utf-8").splitlines()
    names = [re.split(r"[:\s]", line)[0] for line in lines if line and not line.startswith("#")]
    return [name for name in names if (top / "crates" / name / "specs").is_dir()]


def owner(call: Entry) -> str:
    """The type or trait whose call it is, or the function itself."""
    return re.split("::| as ", call.name)[0]


def public_calls(top: Path, crate: str, code: Code) -> Iterator[Entry]:
    names, files = exports(top, crate)
    for one in code.entries:
        if one.key[0] == crate and one.has_contract and (owner(one) in names or one.path in files):
            yield one
