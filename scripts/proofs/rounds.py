"""Rounds of trials: a copy of the repository, trials beside its proofs, and a check that shows which of them pass."""
import re
import subprocess
import sys
from collections import Counter, defaultdict
from pathlib import Path

from proof_text import IMPORT, Proof, SIGNATURE, imports, named, proofs_of, words
from shorter_forms import Change, Helper, Trial, Trials

# More proofs than these keep a helper.
MOST_USERS = 4
# Sets of lemmas and words of the logic, which are no lemmas to be listed.
NO_LEMMAS = set("refl sym ap subst absurd arith common_steps nat_tests tt rules zero suc nil cons".split())
SETS = {
    "arith": "Rattle.std.proofs.Common",
    "common_steps": "Rattle.std.proofs.lemmas.Grind",
    "nat_tests": "Rattle.std.proofs.lemmas.Bool.Decides",
}


# What `rt check`, and `rt fmt` too, tells of no declaration by its name.
OF_A_FILE = re.compile(
    r"^(?:\./|/\S*/crates/\w+/)(proofs/\S+\.antt): ?(\d+):\d+: (?:error: (?!`)|(?!error|note|warning|help))",
    re.MULTILINE,
)


class Crate:
    """The proofs of a crate in a copy of the repository."""

    def __init__(self, top: Path, name: str, only: list[str]) -> None:
        self.top, self.name, self.folder = top, name, top / "crates" / name
        self.only = [self.folder / "proofs" / file for file in only or ["."]]
        self.read()

    def is_tried(self, file: Path) -> bool:
        return any(file.is_relative_to(place) for place in self.only)

    def read(self) -> None:
        self.lines = {file: file.read_text().split("\n") for file in sorted(self.folder.glob("proofs/**/*.antt"))}
        self.proofs = {file: list(proofs_of(file, lines)) for file, lines in self.lines.items()}

    def module(self, file: Path) -> str:
        return ".".join(["Rattle", self.name, *file.relative_to(self.folder).with_suffix("").parts])

    def lemmas(self) -> set[str]:
        """The lemmas of the repository, and those of std that its proofs import."""
        found: set[str] = set()
        for file in self.top.glob("crates/*/proofs/**/*.antt"):
            for line in file.read_text().split("\n"):
                match = SIGNATURE.match(line)
                if match and "abbrev" not in match.group(2) and not line.endswith("Type 0"):
                    found.add(match.group(3))
                for name, module in imports([line]).items():
                    if ".proofs.lemmas." in module or ".proofs.Math." in module:
                        found.add(name)
        return {name for name in found - NO_LEMMAS if name[:1].islower() and "◌" not in name}

    def helpers(self) -> dict[str, Helper]:
        """Lemmas of one clause that few proofs cite, in bodies without `where` alone, and no source file."""
        uses: Counter[str] = Counter()
        for pattern in ("crates/*/*s/**/*.antt", "crates/*/src/**/*.rt"):
            for file in self.top.glob(pattern):
                uses.update(words(file.read_text().replace("::", " ")))
        every = [proof for proofs in self.proofs.values() for proof in proofs]
        users: dict[str, list[Proof]] = defaultdict(list)
        counted: Counter[str] = Counter()
        for proof in every:
            cited = words("\n".join(clause.body for clause in proof.clauses))
            if not proof.is_definition and "where" not in cited:
                counted.update(cited)
                for name in cited:
                    users[name].append(proof)
        found: dict[str, Helper] = {}
        for proof in every:
            name, theirs = proof.name, [user for user in users[proof.name] if user != proof]
            is_cited_there = uses[name] == counted[name] + 2 and proof not in users[name]
            is_small = len(proof.clauses) == 1 and len(proof.opening) < 5 and proof.length <= 4
            if is_cited_there and is_small and 1 <= len(theirs) <= MOST_USERS:
                if not proof.is_definition and not proof.is_answer and (len(theirs) == 1 or proof.length <= 2):
                    found[name] = Helper(proof, tuple(theirs))
        return found

    def trials(self) -> list[Trial]:
        lemmas, helpers = self.lemmas(), self.helpers()
        found: list[Trial] = []
        for file, proofs in self.proofs.items():
            if not self.is_tried(file):
                continue
            known = set(imports(self.lines[file])) | {proof.name for proof in proofs}
            reach = {helper.proof.name: known | self.offered(helper.proof, file) for helper in helpers.values()}
            for proof in proofs:
                if not proof.is_definition and "where" not in words("\n".join(c.text for c in proof.clauses)):
                    found += {trial.text: trial for trial in Trials(lemmas, known, helpers, reach).of(proof)}.values()
        return found

    def offered(self, helper: Proof, file: Path) -> set[str]:
        """The names of the helper's body that this file has or can import from where the helper has them."""
        here = helper.file == file
        theirs = {proof.name for proof in self.proofs[helper.file] if here or "pub" in proof.marks}
        return (theirs | set(imports(self.lines[helper.file]))) & set(named(helper.clauses[0].body))

    def with_imports(self, file: Path, text: str, trials: list[Trial]) -> str:
        """The text with imports of the sets of lemmas, and of what trials cite in place of their helpers."""
        modules = dict(SETS)
        cited = {name for trial in trials for name in trial.lemmas}
        for helper in {helper.proof for trial in trials for helper in trial.helpers}:
            public = (proof.name for proof in self.proofs[helper.file] if "pub" in proof.marks)
            theirs = dict.fromkeys(public, self.module(helper.file)) | imports(self.lines[helper.file])
            modules |= {name: module for name, module in theirs.items() if name in cited}
        own = set(imports(text.split("\n"))) | {proof.name for proof in self.proofs[file]}
        missing = [name for name in words(text) if name in modules and name not in own]
        new = "".join(f"use {modules[name]}.{{{name}}}\n" for name in missing if modules[name] != self.module(file))
        first = re.search(r"^use ", text, re.MULTILINE)
        at = first.start() if first else 0
        return text[:at] + new + text[at:]

    def check(self, jobs: int) -> tuple[bool, str]:
        run = subprocess.run(
            ["rt", "check", "--jobs", str(jobs)], cwd=self.folder, capture_output=True, text=True, errors="replace"
        )
        return run.returncode == 0, run.stdout + run.stderr

    def passing(self, jobs: int) -> list[Trial]:
        """The trials that a check passes as lemmas beside the proofs."""
        numbered = {f"trial{number}": trial for number, trial in enumerate(self.trials())}
        while blamed := self.blamed(self.set_beside(numbered), self.format()):
            for name in blamed:
                del numbered[name]
        while True:
            texts = self.set_beside(numbered)
            _, told = self.check(jobs)
            blamed = self.blamed(texts, told)
            failed = set(re.findall(r"error: `(trial\d+)`", told))
            for rest in re.findall(r"not checked: ([^\n]*)", told):
                failed |= set(re.findall(r"trial\d+", rest))
            print(f"{self.name}: {len(numbered)} trials, {len(failed)} failed", file=sys.stderr, flush=True)
            if not blamed:
                break
            for name in blamed | failed:
                numbered.pop(name, None)
        for file in texts:
            file.write_text("\n".join(self.lines[file]))
        return [trial for name, trial in numbered.items() if name not in failed]

    def set_beside(self, numbered: dict[str, Trial]) -> dict[Path, str]:
        """Writes the files with these trials beside the proofs, and answers their texts."""
        beside: dict[Path, dict[int, list[str]]] = {file: defaultdict(list) for file in self.lines}
        for name, trial in numbered.items():
            proof = trial.proof
            own = re.compile(rf"(?<![^\s(,;]){re.escape(proof.name)}(?![^\s),;.])")
            first = re.sub(rf"^(\s*)(pub )?{re.escape(proof.name)}(?=\s)", rf"\g<1>{name}", proof.opening[0])
            copy = "\n".join([first, *proof.opening[1:], own.sub(name, trial.text)])
            beside[proof.file][proof.end] += ["", *copy.split("\n")]
        texts = {}
        for file, added in beside.items():
            lines = self.lines[file]
            text = "\n".join(line for at in range(len(lines) + 1) for line in [*added[at], *lines[at : at + 1]])
            texts[file] = self.with_imports(file, text, [t for t in numbered.values() if t.proof.file == file])
            file.write_text(texts[file])
        return texts

    def format(self) -> str:
        run = subprocess.run(["rt", "fmt"], cwd=self.folder, capture_output=True, text=True, check=False)
        return run.stdout + run.stderr

    def blamed(self, texts: dict[Path, str], told: str) -> set[str]:
        """The trials in which that stands what is told of a whole file: of its grammar, or of a name out of scope."""
        found: set[str] = set()
        for match in OF_A_FILE.finditer(told):
            before = texts[self.folder / match.group(1)].split("\n")[: int(match.group(2))]
            names = [signature.group(3) for line in before if (signature := SIGNATURE.match(line))]
            found |= {name for name in names[-1:] if re.fullmatch(r"trial\d+", name)}
        return found

    def rendered(self, file: Path, chosen: list[Trial]) -> tuple[str, list[tuple[int, int, Trial]]]:
        """The file with these trials in place of their proofs, and the lines of each there."""
        changes = {trial.proof.begin: (trial.proof.end, trial) for trial in chosen if trial.proof.file == file}
        lines = self.lines[file]
        helpers = {helper.proof for trial in chosen for helper in trial.helpers if helper.proof.file == file}
        gone = {with_comment(lines, proof): proof.end for proof in helpers}
        out: list[str] = []
        ranges = []
        at = 0
        while at < len(lines):
            if at in gone:
                at = gone[at] + (lines[gone[at] : gone[at] + 1] == [""])
            elif at in changes:
                end, trial = changes[at]
                ranges.append((len(out), len(out) + trial.text.count("\n") + 1, trial))
                out += trial.text.split("\n")
                at = end
            else:
                out.append(lines[at])
                at += 1
        text = self.with_imports(file, without_unused("\n".join(out)), [trial for _, trial in changes.values()])
        shift = text.count("\n") - len(out) + 1
        return text, [(begin + shift + 1, end + shift, trial) for begin, end, trial in ranges]

    def put(self, found: list[Change], jobs: int) -> list[Change]:
        """Puts the shortest changes in place, takes back what doesn't stand there, and answers what stands."""
        chosen = without_clashes(found)
        while True:
            trials = [trial for change in chosen for trial in change.trials]
            ranges = {}
            for file in self.lines:
                text, ranges[file] = self.rendered(file, trials)
                file.write_text(text)
            stands, told = self.check(jobs)
            if stands or not chosen:
                break
            faulty = set(map(id, self.faulty(told, ranges) or trials))
            chosen = [change for change in chosen if not faulty & set(map(id, change.trials))]
        subprocess.run(["rt", "fmt"], cwd=self.folder, capture_output=True, check=False)
        self.read()
        return chosen

    def faulty(self, told: str, ranges: dict[Path, list[tuple[int, int, Trial]]]) -> list[Trial]:
        """The trials in whose lines a check found an error; where there is none, those that touch a file with one."""
        here: list[Trial] = []
        near: list[Trial] = []
        for match in re.finditer(r"^\./(proofs/[^:\n]*\.antt):(\d+):\d+: error: ([^\n]*)", told, re.MULTILINE):
            file, line = self.folder / match.group(1), int(match.group(2))
            here += [trial for begin, end, trial in ranges[file] if begin <= line <= end]
            if "not checked:" not in match.group(3):
                every = [trial for placed in ranges.values() for _, _, trial in placed]
                near += [trial for trial in every if file in {trial.proof.file, *(h.proof.file for h in trial.helpers)}]
        return here or near


def with_comment(lines: list[str], proof: Proof) -> int:
    """The line at which the proof begins with the comment above it, if that is no heading."""
    start = proof.start
    while start > 0 and re.match(r"\s*--(?! ----)", lines[start - 1]):
        start -= 1
    opens_file = all(not line.strip() or line.startswith(("use ", "pub use ")) for line in lines[:start])
    return proof.start if opens_file else start


def changes(passed: list[Trial]) -> list[Change]:
    """Trials without a helper alone, and for each helper the best of all its users where each has one."""
    found = [Change((trial,)) for trial in passed if not trial.helpers or len(trial.helpers) > 1]
    users: dict[str, dict[tuple[Path, int], Trial]] = defaultdict(dict)
    for trial in passed:
        if len(trial.helpers) == 1:
            best, place = users[trial.helpers[0].proof.name], (trial.proof.file, trial.proof.start)
            if place not in best or (trial.less, -len(trial.text)) > (best[place].less, -len(best[place].text)):
                best[place] = trial
    for best in users.values():
        trials = tuple(best.values())
        if {(user.file, user.start) for user in trials[0].helpers[0].users} <= set(best):
            found.append(Change(trials))
    return [change for change in found if change.saved > 0]


def without_clashes(found: list[Change]) -> list[Change]:
    """The changes that save most, of which no two touch one proof, and none cites a helper that goes."""
    chosen: list[Change] = []
    touched: set[tuple[Path, int]] = set()
    gone: set[str] = set()
    cited: Counter[str] = Counter()
    for change in sorted(found, key=lambda change: -change.saved):
        texts = words("\n".join(trial.text for trial in change.trials))
        helpers = {helper.proof.name for helper in change.helpers}
        if not change.touched & touched and not helpers & set(cited) and not gone & set(texts):
            chosen.append(change)
            touched |= change.touched
            gone |= helpers
            cited.update(texts)
    return chosen


def without_unused(text: str) -> str:
    """The text without imports of names that it doesn't name."""
    used, out = words(text), []
    for line in text.split("\n"):
        match = IMPORT.match(line)
        if match:
            names = [name.strip() for name in match.group(2).split(",")]
            kept = [name for name in names if "◌" in name or name.split(" as ")[-1].split(".")[-1] in used]
            if not kept:
                continue
            line = line if kept == names else f"use {match.group(1)}.{{{', '.join(kept)}}}"
        out.append(line)
    return "\n".join(out)
