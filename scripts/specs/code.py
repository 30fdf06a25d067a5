"""What the code declares, with its contracts."""
import re
from collections.abc import Iterator, Sequence
from dataclasses import dataclass
from pathlib import Path
from typing import Optional

from specs.definitions import bound_in, without_labels
from specs.entries import STRING, Entry, Key, Scope

DECLARATION = r"(pub(\(crate\))? )?(extern \"C\" )?(fn|struct|enum|trait|impl|ghost|const|type|use|mod)\b"


@dataclass
class Block:
    """A declaration: its documentation, its lines up to the next one, and where it starts."""

    doc: list[str]
    lines: list[str]
    at: int


@dataclass
class SourceFile:
    """A file of the code, with the types that it may name."""

    crate: str
    path: str
    lines: list[str]
    scope: Scope
    types: dict[str, Key]

    def named(self, text: str) -> list[Key]:
        """The types that a text names."""
        return [self.types[name] for name in re.findall(r"\w+", text) if name in self.types]


def read_source(top: Path, path: Path, crate: str, crates: Sequence[str]) -> SourceFile:
    lines = path.read_text(encoding="utf-8").splitlines()
    scope = Scope()
    scope.take_imports(line for line in lines if line.startswith("ghost use "))
    types = {}
    text = "\n".join(line for line in lines if not re.match(r"\s*(//|ghost )", line))
    for home, names in imports(text):
        home = crate if home == "crate" else home
        if home in crates:
            types.update({name: (home, name) for name in names})
    for name in re.findall(r"^pub (?:struct|enum|trait) (\w+)", text, re.M):
        types[name] = (crate, name)
    return SourceFile(crate, str(path.relative_to(top)), lines, scope, types)


def imports(text: str) -> Iterator[tuple[str, list[str]]]:
    """What the code imports or exports: the crate or module where each path begins, and the names at its end."""
    for home, one, many in re.findall(r"^(?:pub )?use (\w+)(?:::\w+)*::(?:(\w+)|\{([^}]*)\});", text, re.M):
        yield home, [name.strip() for name in (one or many).split(",") if name.strip()]


def exports(top: Path, crate: str) -> tuple[set[str], set[str]]:
    """The names that a library exports, to C too, and the files of its public modules."""
    text = (top / "crates" / crate / "src" / "lib.rt").read_text(encoding="utf-8")
    lines = "\n".join(re.findall(r"^pub use [^;]*;", text, re.M))
    names = {name for _, some in imports(lines) for name in some}
    names.update(re.findall(r"^pub extern \"C\" fn (\w+)", text, re.M))
    return names, {f"crates/{crate}/src/{name}.rt" for name in re.findall(r"^pub mod (\w+);", text, re.M)}


def passed_on(top: Path, crate: str) -> Iterator[tuple[str, Key]]:
    """The names that a library exports of another one, with where it has them from."""
    text = (top / "crates" / crate / "src" / "lib.rt").read_text(encoding="utf-8")
    for home, names in imports("\n".join(re.findall(r"^pub use [^;]*;", text, re.M))):
        if (top / "crates" / home).is_dir():
            yield from ((name, (home, name)) for name in names)


# ---- where things start and end

def cut_blocks(lines: Sequence[str], indent: str) -> Iterator[Block]:
    """The declarations at this indentation."""
    doc: list[str] = []
    block: Optional[Block] = None
    for at, line in enumerate(lines):
        starts = re.match(indent + DECLARATION, line)
        above = line.startswith((indent + "///", indent + "#["))
        if block and not starts and not above:
            block.lines.append(line)
            continue
        if block:
            yield block
        block = Block(doc, [line], at) if starts else None
        doc = [] if starts else doc + [line] if line.startswith(indent + "///") else doc
    if block:
        yield block


def members(block: Block) -> Iterator[Block]:
    """The declarations inside a trait or an impl, but imports."""
    for one in cut_blocks(block.lines, "    "):
        if "ghost use" not in one.lines[0]:
            yield Block(one.doc, trimmed(one.lines), block.at + one.at)


def trimmed(lines: Sequence[str]) -> list[str]:
    """Lines without empty ones at their end."""
    kept = list(lines)
    while kept and not kept[-1].strip():
        kept.pop()
    return kept


def cut_contract(block: Block, indent: str) -> tuple[list[str], list[str]]:
    """The signature and the clauses of a function, without its body."""
    signature: list[str] = []
    clauses: list[str] = []
    depth = 0
    for line in block.lines:
        part = clauses if clauses or re.match(r"\s*(requires|ensures)\b", line) else signature
        if depth == 0 and line.rstrip() in (indent + "{", indent + "{}"):
            break
        bare = STRING.sub('""', line)
        if part is signature and bare.endswith((" {", " {}")):
            part.append(re.sub(r" \{\}?$", "", line))
            break
        part.append(line)
        depth += bare.count("{") - bare.count("}")
        if depth == 0 and bare.endswith(";"):
            break
    return signature, clauses


def cut_ghost(block: Block) -> list[str]:
    """A ghost member, to its last brace."""
    depth = 0
    for many, line in enumerate(block.lines, 1):
        depth += line.count("{") - line.count("}")
        if depth == 0 and line.endswith((";", ",")):
            return block.lines[:many]
    return block.lines


def cut_header(block: Block) -> str:
    """The line of an impl, in front of its members."""
    end = next((at for at, line in enumerate(block.lines) if line.endswith(("{", "{}"))), 0)
    return " ".join(line.strip() for line in block.lines[: end + 1])


def without_generics(text: str) -> str:
    less = re.sub(r"<[^<>]*>", "", text)
    return text if less == text else without_generics(less)


def without_bounds(text: str) -> str:
    """A signature without what it asks of its parameters."""
    return re.sub(r"\b[A-Z]\w*: [\w +]+", "", text)


# ---- what is cited

def cited_by_clauses(clauses: Sequence[str], signature: str, file: SourceFile, scope: Scope) -> list[Key]:
    """What clauses cite: definitions, the impls that they name, and the traits of the parameters whose members they
    name. Then the types of the signature."""
    text = "\n".join(line for line in clauses if not line.lstrip().startswith("//"))
    text = re.sub(r"^\s*(requires|ensures)(\s+\w+)?\s*\{", "{", text, flags=re.M)
    cited = scope.cited(without_labels(text), bound_in(text))
    with_members = set(re.findall(r"\b([A-Z]\w*)\.\w", text))
    for parameter, bounds in re.findall(r"\b([A-Z]\w*): ([\w +]+)", signature):
        if parameter in with_members:
            cited += file.named(bounds)
    for impl in re.findall(r"⟦([^⟧]*)⟧", text):
        cited += file.named(impl)
    return cited + file.named(without_bounds(signature))


def read_member(member: Block, header: str, file: SourceFile, scope: Scope) -> tuple[list[str], list[Key]]:
    """The text of a ghost member or of a function with clauses, and what it cites; nothing for another function."""
    if "ghost " in member.lines[0]:
        lines = cut_ghost(member)
        text = re.sub(r"^\s*(pub )?ghost \w+", "", "\n".join(lines))
        return lines, scope.cited(without_labels(text), bound_in(text))
    signature, clauses = cut_contract(member, "    ")
    cited = cited_by_clauses(clauses, "\n".join([header, *signature]), file, scope)
    return (signature + clauses if clauses else []), cited


class Code:
    """What is in the crates' sources: functions, methods, types, traits and impls."""

    def __init__(self) -> None:
        self.entries: list[Entry] = []
        self.types: dict[Key, Entry] = {}

    def read(self, file: SourceFile) -> None:
        readers = {"fn": self.read_function, "struct": self.read_type, "enum": self.read_type, "trait": self.read_trait}
        for block in cut_blocks(file.lines, ""):
            found = re.match(r"pub (?:extern \"C\" )?(fn|struct|enum|trait) (\w+)", block.lines[0])
            if found:
                readers[found[1]](file, block, found[2])
            elif block.lines[0].startswith("impl"):
                self.read_impl(file, block)

    def add(self, file: SourceFile, name: str, block: Block, text: Sequence[str], cites: list[Key]) -> Entry:
        entry = Entry((file.crate, name), file.path, block.at + 1, block.doc, trimmed(text), cites, True)
        self.entries.append(entry)
        return entry

    def read_function(self, file: SourceFile, block: Block, name: str) -> None:
        signature, clauses = cut_contract(block, "")
        cites = cited_by_clauses(clauses, "\n".join(signature), file, file.scope)
        self.add(file, name, block, block.doc + signature + clauses, cites)

    def read_type(self, file: SourceFile, block: Block, name: str) -> None:
        """A struct or an enum: contracts see its public fields and its invariants, where it has no model."""
        end = next((at for at, line in enumerate(block.lines) if line == "}" or line.endswith(";")), 0)
        lines = [line for line in block.lines[: end + 1] if not line.startswith("    #[")]
        ghosts = [line for line in lines if line.startswith("    ghost ")]
        fields = [line for line in lines if not line.startswith(("    ghost ", "    ///"))]
        seen = fields if "enum" in fields[0] else [line for line in fields if "pub " in line]
        cites = file.scope.cited("\n".join(ghosts)) + file.named(without_bounds("\n".join(seen)))
        entry = self.add(file, name, block, block.doc + lines, cites)
        entry.has_contract = False
        self.types[entry.key] = entry

    def read_trait(self, file: SourceFile, block: Block, name: str) -> None:
        text: list[str] = []
        cites: list[Key] = []
        for member in members(block):
            lines, cited = read_member(member, "", file, file.scope)
            text += ["", *member.doc, *(lines or cut_contract(member, "    ")[0])]
            text[-1] = text[-1].rstrip(";") + ";"
            cites += cited
        entry = self.add(file, name, block, [*block.doc, block.lines[0], *text[1:], "}"], cites)
        self.types[entry.key] = entry

    def read_impl(self, file: SourceFile, block: Block) -> None:
        """The public methods of a type, or what its impl of a trait says."""
        header = cut_header(block)
        found = re.match(r"impl (?:(?:\w+::)*(\w+) for )?(\w+)", without_generics(header))
        if not found:
            return
        scope = Scope(dict(file.scope.names), dict(file.scope.modules))
        scope.take_imports(line for line in block.lines if line.startswith("    ghost use "))
        if found[1] == "Model":
            self.read_model(file, block, found[2], scope)
        elif found[1]:
            self.read_trait_impl(file, block, header, f"{found[2]} as {found[1]}", scope)
        else:
            for member in members(block):
                self.read_method(file, member, header, found[2], scope)

    def read_method(self, file: SourceFile, member: Block, header: str, of_type: str, scope: Scope) -> None:
        found = re.match(r"    pub fn (\w+)", member.lines[0])
        if found:
            signature, clauses = cut_contract(member, "    ")
            cites = cited_by_clauses(clauses, "\n".join([header, *signature]), file, scope)
            text = [line[4:] for line in member.doc + signature + clauses]
            self.add(file, f"{of_type}::{found[1]}", member, text, cites + [(file.crate, of_type)])

    def read_trait_impl(self, file: SourceFile, block: Block, header: str, name: str, scope: Scope) -> None:
        text: list[str] = []
        cites: list[Key] = file.named(header)
        for member in members(block):
            lines, cited = read_member(member, header, file, scope)
            if lines:
                text += ["", *lines]
                cites += cited
        if text:
            self.add(file, name, block, [*block.doc, header, *text[1:], "}"], cites)

    def read_model(self, file: SourceFile, block: Block, of_type: str, scope: Scope) -> None:
        """Contracts see a type's model and nothing of its fields, so its invariant stays inside."""
        entry = self.types.get((file.crate, of_type))
        for member in members(block):
            if entry and "ghost Value" in member.lines[0]:
                lines, entry.cites = read_member(member, "", file, scope)
                head = next(line for line in entry.text if line.startswith("pub "))
                entry.text = [*entry.comment, head, "    // To contracts it is a value of this type.", *lines, "}"]
