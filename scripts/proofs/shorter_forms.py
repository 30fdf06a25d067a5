"""Shorter forms of a proof, to be tried."""
import re
from collections.abc import Iterator
from dataclasses import dataclass
from pathlib import Path

from proof_text import NAME, Clause, Proof, closing, is_balanced, named

WIDTH = 118
TACTIC = re.compile(r"\s*(grind|omega|cc|search|simp|hlevel)\b")
# Words of the logic that need no import.
WORDS = set("let in grind omega cc search simp rw at elim record arith".split())
ENDS_ARGUMENTS = set("in let ∙ ≡ ≤ < → × λ ↦ | = ∷ ++ + - * elim record as ⊎".split())


@dataclass(frozen=True)
class Helper:
    """A lemma that these proofs alone cite."""

    proof: Proof
    users: tuple[Proof, ...]

    @property
    def clause(self) -> Clause:
        return self.proof.clauses[0]


@dataclass(frozen=True)
class Trial:
    """Clauses that may stand for those of a proof, without some helpers, whose lemmas they cite."""

    proof: Proof
    clauses: tuple[Clause, ...]
    helpers: tuple[Helper, ...]

    @property
    def lemmas(self) -> set[str]:
        return {name for helper in self.helpers for name in named(helper.clause.body)}

    @property
    def text(self) -> str:
        return "\n".join(clause.text for clause in self.clauses)

    @property
    def less(self) -> int:
        """The lines that the proof itself loses."""
        return self.proof.length - self.text.count("\n") - 1

    @property
    def may_stand(self) -> bool:
        fits = all(len(line) <= WIDTH for line in self.text.split("\n"))
        pays = self.less + sum(helper.proof.lines for helper in self.helpers) > 0
        return fits and pays and all(is_balanced(clause.text) for clause in self.clauses)


@dataclass(frozen=True)
class Change:
    """Trials that stand together: one alone, or those of all proofs that cite a helper, which goes."""

    trials: tuple[Trial, ...]

    @property
    def helpers(self) -> tuple[Helper, ...]:
        return self.trials[0].helpers

    @property
    def touched(self) -> set[tuple[Path, int]]:
        return {(p.file, p.start) for p in (*(t.proof for t in self.trials), *(h.proof for h in self.helpers))}

    @property
    def saved(self) -> int:
        return sum(trial.less for trial in self.trials) + sum(helper.proof.lines for helper in self.helpers)


def bound(text: str) -> set[str]:
    """The names that `let`, `λ` and cases bind."""
    binders = re.findall(rf"let ({NAME})", text)
    for group in re.findall(r"λ ([^.]*)\.|let \(([^)]*)\)|\| ([^↦]*)↦", text):
        binders += re.findall(NAME, " ".join(group))
    return set(binders)


def in_scope(body: str, place: int) -> set[str]:
    """The names that stand bound at a place of the body."""
    found: set[str] = set()
    for match in re.finditer(rf"let (\([^)]*\)|{NAME})|λ ([^.]*)\.|\| ([^↦]*)↦", body[:place]):
        depth = lowest = 0
        ends = False
        for char in body[match.end() : place]:
            depth += (char in "([{") - (char in ")]}")
            lowest = min(lowest, depth)
            ends = ends or (char in ",;|" and depth == 0)
        if lowest == 0 and not ends:
            found |= set(re.findall(NAME, " ".join(group for group in match.groups() if group)))
    return found


def recursive_calls(name: str, body: str) -> list[str]:
    calls = []
    for match in re.finditer(rf"(?<![^\s(,;]){re.escape(name)}(?![^\s),;.])", body):
        place, depth = match.end(), 0
        while place < len(body):
            char = body[place]
            depth += (char in "([{") - (char in ")]}")
            following = re.match(r"\s+(\S+)", body[place:])
            ends = char in ",;" or (char.isspace() and (not following or following.group(1) in ENDS_ARGUMENTS))
            if depth < 0 or (depth == 0 and ends):
                break
            place += 1
        call = " ".join(body[match.start() : place].split())
        if call != name and is_balanced(call):
            calls.append(call)
    return list(dict.fromkeys(calls))


def arguments(body: str, place: int) -> tuple[list[str], int]:
    """The arguments that stand behind a name that ends at `place`, and where they end."""
    found = []
    while True:
        match = re.compile(rf"\s+(?={NAME}|[({{])").match(body, place)
        if not match:
            return found, place
        begin = match.end()
        if body[begin] == "{":
            return found, place
        if body[begin] == "(":
            end = closing(body, begin)
            end = len(body) if end is None else end + 1
        else:
            end = re.compile(NAME).match(body, begin).end()
            if body[begin:end] in ENDS_ARGUMENTS:
                return found, place
        path = re.compile(rf"(\.{NAME})*").match(body, end)
        found.append(body[begin : path.end()])
        place = path.end()


def inlined_body(helper: Proof) -> list[str] | None:
    """The helper's variables and its body, where it is one line that takes variables alone."""
    words = helper.clauses[0].head.split()[1:]
    body = helper.clauses[0].body.strip()
    if helper.indent or "\n" in body or not all(re.fullmatch(NAME, word) for word in words) or "λ" in body:
        return None
    return [*words, body]


def without(body: str, helper: Proof, lemmas: list[str], inlined: "str | list[str]") -> str | None:
    """The body where lemmas stand for the helper in lists of tactics, and this for its calls."""
    place = 0
    name = re.compile(rf"(?<![^\s(,;]){re.escape(helper.name)}(?![^\s),;.])")
    while match := name.search(body, place):
        begin, end = match.span()
        listed = re.search(r"(?:\(|, )$", body[:begin]) and re.match(r"[,)]", body[end:])
        if listed:
            opened = max((at for at in range(begin) if body[at] == "(" and (closing(body, at) or 0) >= end), default=0)
            there = body[opened : closing(body, opened) or len(body)]
            new = [lemma for lemma in lemmas if not re.search(rf"(?<![^\s(,]){re.escape(lemma)}(?![^\s),])", there)]
            text = ", ".join(new)
            if not new:
                begin, end = (begin - 2, end) if body[begin - 2 : begin] == ", " else (begin, end + 2)
        else:
            args, end = arguments(body, end)
            if isinstance(inlined, list):
                if len(args) != len(inlined) - 1:
                    return None
                values = dict(zip(inlined, args))
                text = re.sub(NAME, lambda m: values.get(m.group(0), m.group(0)), inlined[-1])
                if re.search(r"\s", text):
                    text = f"({text})"
            else:
                text = inlined
        body = body[:begin] + text + body[end:]
        place = begin + len(text)
    return body


def parts(body: str) -> Iterator[tuple[int, int]]:
    """Parts over several lines: what stands in brackets, an entry between them, a fact with its type."""
    for match in re.finditer(r"[(\[{]", body):
        end = closing(body, match.start())
        if end is None:
            continue
        begin, depth = match.end(), 0
        for place in range(match.end(), end + 1):
            char = body[place]
            if depth == 0 and (char in ",;" or body[place : place + 2] == "| " or place == end):
                value = re.match(r"\s*[^=↦\n]* [=↦](?=\s)", body[begin:place])
                yield begin + (value.end() if value else 0), place
                begin = place + 1
            depth += (char in "([{") - (char in ")]}")
    for match in re.finditer(rf"let {NAME} : ", body):
        begin = re.compile(r" =\s").search(body, match.end())
        end = begin and re.compile(r"\sin\s").search(body, begin.end())
        if begin and end:
            yield begin.end() - 1, end.start()


def calls_in(proof: Proof, clause: Clause) -> list[str]:
    """The recursive calls whose arguments the clause's head tells."""
    inside = bound(clause.body)
    return [call for call in recursive_calls(proof.name, clause.body) if not set(re.findall(NAME, call)) & inside]


def standing(trial: Trial) -> Iterator[Trial]:
    """The trial in its tidy form, if it may stand."""
    clauses = tuple(Clause(clause.head, tidy(clause)) for clause in trial.clauses)
    trial = Trial(trial.proof, clauses, trial.helpers)
    gone = {helper.proof.name for helper in trial.helpers}
    is_whole = len(clauses) == len(trial.proof.clauses)
    if is_whole and trial.may_stand and not gone & set(named("\n".join(clause.body for clause in clauses))):
        yield trial


def tidy(clause: Clause) -> str:
    """The body without brackets that nothing needs, and with values on their line where they fit there."""
    body = clause.body
    whole = body.strip()
    call = re.match(r"\((?:grind|omega|search|cc) (?=\()", whole)
    if call and closing(whole, call.end()) == len(whole) - 2:
        body = body.replace(whole, whole[1:-1])
    for match in list(re.finditer(r"\(\((?=grind|omega|search|cc)", body))[::-1]:
        inner = closing(body, match.start() + 1)
        if inner is not None and body[inner + 1 : inner + 2] == ")":
            body = body[: match.start()] + body[match.start() + 1 : inner + 1] + body[inner + 2 :]
    lines = f"{clause.head} ={body}".split("\n")
    for at in range(len(lines) - 2, -1, -1):
        value, ends = lines[at + 1].strip(), at + 2 == len(lines) or lines[at + 1].endswith(";")
        if lines[at].endswith(" =") and ends and is_balanced(value) and len(lines[at]) + len(value) < WIDTH:
            lines[at : at + 2] = [f"{lines[at]} {value}"]
    return "\n".join(lines).removeprefix(f"{clause.head} =")


class Trials:
    """All that is tried for the proofs of a file, where these names are known, and more in place of each helper."""

    def __init__(
        self, lemmas: set[str], known: set[str], helpers: dict[str, Helper], reach: dict[str, set[str]]
    ) -> None:
        self.lemmas, self.known, self.helpers, self.reach = lemmas, known, helpers, reach

    def cited(self, proof: Proof, clause: Clause, body: str, known: set[str] | None = None) -> list[str]:
        apart = bound(body) | set(re.findall(NAME, clause.head)) | {proof.name}
        known = self.known if known is None else known
        return [name for name in named(body) if name in self.lemmas & known and name not in apart]

    def facts(self, proof: Proof, clause: Clause, begin: int, end: int) -> list[str]:
        """What a part of the body cites, with its arguments where the names in them are bound before the part."""
        part, found, done = clause.body[begin:end], [], 0
        names = set(self.cited(proof, clause, part))
        unknown = bound(part) | (bound(clause.body) - in_scope(clause.body, begin)) | {"_", "λ"}
        for match in re.finditer(NAME, part):
            if match.start() < done or match.group(0) not in names or part[match.start() - 1 : match.start()] == ".":
                continue
            args, behind = arguments(part, match.end())
            fact = " ".join(part[match.start() : behind].split())
            is_open = set(re.findall(NAME, fact)) & unknown or not args
            found.append(match.group(0) if is_open else fact)
            done = match.end() if is_open else behind
        return list(dict.fromkeys(found))

    def theirs(self, helper: Helper) -> list[str]:
        return self.cited(helper.proof, helper.clause, helper.clause.body, self.reach[helper.proof.name])

    def is_in_scope(self, helper: Helper, inlined: list[str]) -> bool:
        reach = self.reach[helper.proof.name] | WORDS | set(inlined[:-1])
        names = (name for name in named(inlined[-1]) if not re.fullmatch(r"\d+|_|=", name))
        return all(name in reach or f"◌{name}◌" in reach for name in names)

    def of(self, proof: Proof) -> Iterator[Trial]:
        for number, clause in enumerate(proof.clauses):
            for body in self.bodies(proof, clause):
                changed = Clause(clause.head, body)
                yield from standing(Trial(proof, (*proof.clauses[:number], changed, *proof.clauses[number + 1 :]), ()))
        for helpers in self.served(proof):
            forms = [[self.merged(proof, clause, helpers) for clause in proof.clauses]]
            if len(helpers) == 1:
                forms += [[self.replaced(proof, clause, helpers[0], way) for clause in proof.clauses] for way in (0, 1)]
            for bodies in forms:
                clauses = (Clause(c.head, body) for c, body in zip(proof.clauses, bodies) if body is not None)
                yield from standing(Trial(proof, tuple(clauses), helpers))

    def served(self, proof: Proof) -> Iterator[tuple[Helper, ...]]:
        """The helpers that the proof cites, one by one, and all together that serve it alone."""
        names = named("\n".join(clause.body for clause in proof.clauses))
        cited = [self.helpers[name] for name in names if name in self.helpers and proof in self.helpers[name].users]
        alone = tuple(helper for helper in cited if len(helper.users) == 1)
        yield from ((helper,) for helper in cited)
        if len(alone) > 1:
            yield alone

    def merged(self, proof: Proof, clause: Clause, helpers: tuple[Helper, ...]) -> str:
        """One call over the lemmas of the clause and those of the helpers, where it cites one."""
        names = self.cited(proof, clause, clause.body)
        gone = {helper.proof.name for helper in helpers}
        if not gone & set(named(clause.body)):
            return clause.body
        more = [name for helper in helpers for name in self.theirs(helper)]
        entries = [name for name in dict.fromkeys(names + more) if name not in gone]
        return self.call(proof, clause, ["arith", "common_steps", *entries, *calls_in(proof, clause)])

    def replaced(self, proof: Proof, clause: Clause, helper: Helper, way: int) -> str | None:
        """The clause with a call of a tactic, or with the helper's own body, in place of the helper."""
        more = self.theirs(helper)
        value: str | list[str] | None = f"(grind ({', '.join(['arith', 'common_steps', *more])}))"
        if way == 1:
            value = inlined_body(helper.proof)
            is_here = helper.proof.file == proof.file
            value = value if value and (is_here or self.is_in_scope(helper, value)) else None
        return without(clause.body, helper.proof, more, value) if value else None

    def call(self, proof: Proof, clause: Clause, entries: list[str]) -> str:
        call = f"grind ({', '.join(entries)})"
        fits = len(clause.head.split("\n")[-1]) + len(call) + 3 <= WIDTH
        return f" {call}" if fits else "\n" + " " * (proof.indent + 4) + call

    def bodies(self, proof: Proof, clause: Clause) -> Iterator[str]:
        if "\n" in clause.text:
            names = self.cited(proof, clause, clause.body)
            for sets in (["arith"], ["arith", "common_steps"], ["arith", "common_steps", "nat_tests"]):
                names = [name for name in names if name not in sets]
                yield self.call(proof, clause, [*sets, *names, *calls_in(proof, clause)])
            facts = [*self.facts(proof, clause, 0, len(clause.body)), *calls_in(proof, clause)]
            if set(facts) - set(names):
                yield self.call(proof, clause, ["arith", "common_steps", *facts])
                yield self.call(proof, clause, facts).replace("grind", "cc", 1)
            yield from self.shorter_ends(proof, clause)
            yield from self.shorter_parts(proof, clause)

    def shorter_ends(self, proof: Proof, clause: Clause) -> Iterator[str]:
        """The first facts are kept, and the rest is left to a tactic; or one fact less is."""
        body, margin = clause.body, "\n" + " " * (proof.indent + 4)
        ends = [match.end() - 1 for match in re.finditer(r"\sin(?=\s)\s", body) if is_balanced(body[: match.end()])]
        for end in ends:
            kept, left = body[:end], body[end:]
            if "\n" in left.strip() or not TACTIC.match(left):
                names = ", ".join(["arith", "common_steps", *self.cited(proof, clause, left)])
                facts = ", ".join(self.facts(proof, clause, end, len(body)))
                calls = ["cc", "grind (arith, common_steps)", f"grind ({names})"]
                calls += [f"cc ({facts})", f"grind (arith, common_steps, {facts})"] if " " in facts else []
                for call in calls:
                    yield kept + margin + call
        lines = body.split("\n")
        if TACTIC.match(lines[-1]):
            for number, line in enumerate(lines):
                if re.match(r"\s*let .* in$", line):
                    yield "\n".join(lines[:number] + lines[number + 1 :])

    def shorter_parts(self, proof: Proof, clause: Clause) -> Iterator[str]:
        body = clause.body
        for begin, end in parts(body):
            part = body[begin:end]
            if "\n" not in part.strip() or TACTIC.match(part):
                continue
            binder = re.match(r"\s*(λ [^.]*\.)", part)
            names = self.cited(proof, clause, part)
            before = body[:begin].rstrip(" ")
            space = "" if before.endswith(("(", "[", "\n")) else " "
            behind = "" if body[end : end + 1] in ",;)" else " " if body[end : end + 1] != "\n" else ""
            for entries in dict.fromkeys((tuple(names), tuple(self.facts(proof, clause, begin, end)))):
                call = f"grind ({', '.join(['arith', 'common_steps', *entries])})"
                call = f"{binder.group(1)} {call}" if binder else call
                yield before + space + call + behind + body[end:].lstrip(" ")
