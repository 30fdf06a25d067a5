#!/usr/bin/env python3
"""Plants the wrong bodies of crates/*/mutants.edits and must-fail/, or of the crates named, in copies of the libraries,
where the prover has to refuse each by the goal that its line `# clause: FILE GOAL` names. Prints each that isn't
refused by it, with -v each one. The last line is `N passed, M failed`. With --check nothing is proved: it names those
that don't fit the code any more, which the gate would only note, and those of docs/MUTANTS.md that aren't there.

A check takes ten seconds and more before its first function. So a dozen wrong bodies that change different functions
stand in one check, which goes on past open goals and prints each; one that isn't refused there has one of its own.
RT_JOBS checks run at once, as many as there are processors if it isn't set.

What passes is kept in ~/.cache/helgrothy/wrong_bodies, or below XDG_CACHE_HOME, by the checksum of the wrong body, of
the kit and of all files of the crate and of those below it. A later run, also in another clone, tries only what
changed, and says how many it took from there; with --anew it tries all.
"""

from __future__ import annotations

import argparse
import hashlib
import os
import re
import shutil
import signal
import subprocess
import sys
import tempfile
from concurrent.futures import ThreadPoolExecutor
from pathlib import Path
from typing import NamedTuple

TOP = Path(__file__).resolve().parent.parent
# Those that have mutants, each after those that it uses.
LINES: dict[str, str] = dict(re.findall(r"^(\w+)[^:#]*:(.*)", (TOP / "crates.txt").read_text(), re.MULTILINE))
CRATES = [it for it in LINES if (TOP / "crates" / it / "mutants.edits").exists()]
STORE = Path(os.environ.get("XDG_CACHE_HOME") or Path.home() / ".cache") / "helgrothy" / "wrong_bodies"
AT_ONCE = 12
ABSENT = "a text that it replaces doesn't stand there once"
# A header of methods, or a function with its attributes.
FUNCTION = re.compile(
    r"^(impl\b.*|(?:pub )?trait .*|(?: *#\[.*\n)*( *)(?:#\[.*\] )?(?:pub(?:\(crate\))? )?"
    r'(?:extern "C" )?fn (\w+))',
    re.MULTILINE,
)
MESSAGE = re.compile(r"^(?:note: )?(?:\./)?((?:src|specs|proofs)/[^:]+):(\d+):\d+: (.*)", re.MULTILINE)
GOALS = [re.compile(it) for it in (r"^error: `([^`]*)`:", r"\(`([^`]*)", r"`([^`]*)")]

# The files of a crate's src/.
Texts = dict[str, str]


class Edit(NamedTuple):
    """A wrong body: where its goal stands, and its changes, each a file, the old text and the new one."""

    crate: str
    name: str
    file: str
    goal: str
    changes: list[tuple[str, str, str]]


class Group(NamedTuple):
    """Wrong bodies that stand in one check, the functions that they change, and the texts with them."""

    edits: list[Edit]
    functions: set[str]
    texts: Texts


def edits_of(crate: str) -> list[Edit]:
    """Those of mutants.edits, where each begins with a line `# NAME`, and of must-fail/, a file each."""
    at = TOP / "crates" / crate
    file = at / "mutants.edits"
    parts = re.split(r"^# (\w+)\n", file.read_text() if file.exists() else "", flags=re.MULTILINE)
    texts = {name: text for name, text in zip(parts[1::2], parts[2::2])}
    texts.update((it.stem, it.read_text()) for it in sorted((at / "must-fail").glob("*.edit")))
    return [read(crate, name, text) for name, text in texts.items()]


def read(crate: str, name: str, text: str) -> Edit:
    said = {"# clause": " "}
    changes = []
    for key, value in re.findall(r"^(# clause|file|old|new): ?(.*)", text, re.MULTILINE):
        said[key] = value
        if key == "new":
            changes.append((said["file"], said["old"], value))
    file, _, goal = said["# clause"].partition(" ")
    return Edit(crate, name, file, goal, changes)


def owner(header: str) -> str:
    """What the checker calls the methods' place: `FeedSource` for `impl<'a> Source for Feed<'a> {`,
    `InputErrorFromReadFailed` for `impl From<ReadFailed> for InputError {`, and `Outgoing+System+W` for
    `impl<W: Write> Outgoing<System<W>> {`.
    """
    converted = re.match(r"impl (\w+)<(\w+)> for (\w+) {", header)
    if converted:
        return converted[3] + converted[1] + converted[2]
    nested = re.match(r"impl<.*> (\w+<\w+<\w+>>) {", header)
    if nested:
        return "+".join(re.findall(r"\w+", nested[1]))
    while (plain := re.sub(r"<[^<>]*>", "", header)) != header:
        header = plain
    words = re.match(r"(?:pub )?(?:impl|trait) +(?:[\w:]*?(\w+) +for +)?[\w:]*?(\w+)\b(?!::)", header)
    return words[2] + (words[1] or "") if words else ""


def function_at(file: str, text: str, place: int) -> str:
    """The function that a place of a file is in, by the end of its path, or nothing before the first one."""
    module = file[len("src/") : -len(".rt")].replace("/", "::")
    above, path = "", ""
    for found in FUNCTION.finditer(text):
        if found.start() > place:
            break
        if found[3] is None:
            above = owner(found[1])
        else:
            path = "::".join([above if found[2] else module, found[3]]).replace("lib::", "")
    return path


def plant(texts: Texts, edit: Edit) -> Group | None:
    """The texts with this wrong body, unless one that it replaces doesn't stand there once."""
    texts, functions = dict(texts), set()
    for file, old, new in edit.changes:
        if texts.get(file, "").count(old) != 1:
            return None
        functions.add(function_at(file, texts[file], texts[file].index(old) + len(old) - 1))
        texts[file] = texts[file].replace(old, new)
    return Group([edit], functions, texts)


def groups_of(texts: Texts, edits: list[Edit]) -> list[Group]:
    groups: list[Group] = []
    for edit in edits:
        for at, (others, taken, planted) in enumerate(groups):
            own = plant(planted, edit)
            # (a change above the functions may be one for each of them)
            if own and len(others) < AT_ONCE and not own.functions & taken and "" not in own.functions | taken:
                groups[at] = Group([*others, edit], own.functions | taken, own.texts)
                break
        else:
            groups.append(plant(texts, edit) or Group([edit], {""}, {}))
    return groups


class Store:
    """What passed on this machine: of each wrong body a file with its name, named by the checksum of all that its check
    read."""

    def __init__(self) -> None:
        self.kit = subprocess.run(["rt", "version"], capture_output=True, check=True).stdout
        self.sums: dict[str, bytes] = {}

    def sum_of(self, crate: str) -> bytes:
        """The checksum of a crate's files and of those of the crates that it uses."""
        if crate not in self.sums:
            at, total = TOP / "crates" / crate, hashlib.sha256(LINES[crate].encode())
            for file in sorted(it for part in ("src", "specs", "proofs") for it in (at / part).rglob("*.*")):
                total.update(str(file.relative_to(at)).encode() + hashlib.sha256(file.read_bytes()).digest())
            for used in LINES[crate].split():
                total.update(self.sum_of(used) if used in LINES else used.encode())
            self.sums[crate] = total.digest()
        return self.sums[crate]

    def file_of(self, edit: Edit) -> Path:
        return STORE / hashlib.sha256(self.kit + self.sum_of(edit.crate) + repr(edit).encode()).hexdigest()

    def has(self, edit: Edit) -> bool:
        return self.file_of(edit).exists()

    def keep(self, edit: Edit) -> None:
        STORE.mkdir(parents=True, exist_ok=True)
        self.file_of(edit).write_text(f"{edit.crate}/{edit.name}\n")


class Tree:
    """A copy of the libraries, whose checks those of its own copies go on from."""

    def __init__(self, folder: str, source: Path = TOP) -> None:
        self.folder, self.is_ended = Path(folder) / "libraries", False
        made = shutil.ignore_patterns("out", "must-fail", "mutants.edits")
        for name in CRATES:
            shutil.copytree(source / "crates" / name, self.folder / "crates" / name, ignore=made)
        lines = (source / "crates.txt").read_text().splitlines(keepends=True)
        (self.folder / "crates.txt").write_text("".join(it for it in lines if re.split(r"\W", it)[0] in CRATES))
        shutil.copy(source / "HANDLES", self.folder)

    def texts(self, crate: str) -> Texts:
        at = self.folder / "crates" / crate
        return {str(it.relative_to(at)): it.read_text() for it in at.glob("src/**/*.rt")}

    def check(self, crate: str, *words: str) -> subprocess.CompletedProcess[str]:
        command, at = ["rt", "check", *words], self.folder / "crates" / crate
        return subprocess.run(command, cwd=at, stdin=subprocess.DEVNULL, capture_output=True, text=True)

    def told(self, group: Group) -> list[tuple[str, str, str]]:
        """The goals that a check of a copy leaves open, each with its file and, in src/, its function."""
        crate = group.edits[0].crate
        with tempfile.TemporaryDirectory(dir=self.folder.parent) as folder:
            copy = Tree(folder, self.folder)
            for file, text in group.texts.items():
                (copy.folder / "crates" / crate / file).write_text(text)
            only = [word for it in sorted(group.functions - {""}) for word in ("--only", it)]
            ran = copy.check(crate, "--jobs", "1", "--allow-holes", *only)
        goals = []
        for file, line, message in MESSAGE.findall(ran.stdout + ran.stderr):
            goal = next((found[1] for it in GOALS if (found := it.search(message))), "")
            text = group.texts.get(file, "")
            place = len("".join(text.splitlines(keepends=True)[: int(line)])) - 1
            goals.append((file, goal, function_at(file, text, place) if text else ""))
        return goals

    def tried(self, group: Group) -> list[tuple[Edit, str]]:
        """The wrong bodies, each with what was told in the place of its goal, or nothing where that was."""
        if not group.texts:
            return [(group.edits[0], ABSENT)]
        told, results = self.told(group), []
        for edit in group.edits:
            alone = plant(self.texts(edit.crate), edit) or group
            own = {(file, goal) for file, goal, name in told if not name or name in alone.functions}
            if (edit.file, edit.goal) in own:
                results.append((edit, ""))
            elif len(group.edits) > 1 and not self.is_ended:
                results += self.tried(alone)
            else:
                results.append((edit, ", ".join(f"{file} {goal}" for file, goal in sorted(own)) or "nothing"))
        return results


def check(crates: list[str]) -> int:
    """Names the wrong bodies that don't fit the code, or are only on the page, and returns whether there are any."""
    status = 0
    cells = re.findall(r"\| ([\w`, ]+) \|$", (TOP / "docs" / "MUTANTS.md").read_text(), re.MULTILINE)
    for name in re.findall(r"`(\w+)`", " ".join(cells)):
        if not list(TOP.glob(f"crates/*/must-fail/{name}.edit")):
            print(f"docs/MUTANTS.md: {name} is in no must-fail/")
            status = 1
    for crate in crates:
        at = TOP / "crates" / crate
        texts = {str(it.relative_to(at)): it.read_text() for it in at.glob("src/**/*.rt")}
        for edit in edits_of(crate):
            if not plant(texts, edit):
                print(f"{crate}/{edit.name}: {ABSENT}")
                status = 1
    return status


def try_all(crates: list[str], store: Store, is_anew: bool, is_verbose: bool) -> tuple[int, int, int]:
    """Tries those of the crates, and returns how many passed, how many failed, and how many had passed before."""
    passed = failed = kept = 0
    pool = ThreadPoolExecutor(int(os.environ.get("RT_JOBS") or len(os.sched_getaffinity(0))))
    with tempfile.TemporaryDirectory() as folder:
        tree, runs = Tree(folder), []
        for crate in crates:
            there = edits_of(crate)
            edits = [it for it in there if is_anew or not store.has(it)]
            kept += len(there) - len(edits)
            if edits and tree.check(crate).returncode:
                print(f"{crate} isn't proved as it stands", flush=True)
                failed += len(edits)
            else:
                runs += [pool.submit(tree.tried, it) for it in groups_of(tree.texts(crate), edits)]
        try:
            for edit, told in (result for run in runs for result in run.result()):
                passed, failed = passed + (not told), failed + bool(told)
                if not told:
                    store.keep(edit)
                if told or is_verbose:
                    but = f"{told}, not " if told else ""
                    print(f"{edit.crate}/{edit.name}: {but}{edit.file} {edit.goal}", flush=True)
        finally:
            tree.is_ended = True
            pool.shutdown(cancel_futures=True)
    return passed, failed, kept


def main() -> int:
    parser = argparse.ArgumentParser(description="Plants wrong bodies, each of which the prover has to refuse.")
    parser.add_argument("-v", action="store_true", help="print each wrong body")
    parser.add_argument("--check", action="store_true", help="only name those that don't fit, or are missing")
    parser.add_argument("--anew", action="store_true", help="try those as well that passed before")
    parser.add_argument("crates", nargs="*", metavar="CRATE", help=f"of {', '.join(CRATES)}")
    words = parser.parse_args()
    if words.check:
        return check(words.crates or CRATES)
    signal.signal(signal.SIGTERM, lambda *_: sys.exit(2))
    passed, failed, kept = try_all(words.crates or CRATES, Store(), words.anew, words.v)
    if kept:
        print(f"{kept} had passed before")
    print(f"{passed + kept} passed, {failed} failed")
    return int(failed > 0)


if __name__ == "__main__":
    sys.exit(main())
