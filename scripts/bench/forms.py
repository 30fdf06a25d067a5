#!/usr/bin/env python3
"""forms.py [--check] [--page] [NAME..]: what each form that was decided by speed gains today.

forms.edits has for each, after a line `# NAME`, the road not taken, in the format of must-fail/: `file:`, `old:`, a
text that stands there once, and `new:`. Here several lines `old:` or `new:` in a row are a text of so many lines. In
front stand three lines more: what stands in the code, what instead, and the set of runs (instructions.py) that it is
counted on. Each edit is planted in a copy, which is built without proofs and counted. The ratio is that of the
instructions of the code as it stands to those with the edit, the geometric mean over the set: below 1 the form gains,
and from 0.995 to 1.005 it could go. Both have to end with the same last line. Builds and counts are kept in
scripts/bench/out by the checksums of what they are made of, so after a run that was broken off only the rest is made.
--page puts the table into FORMS.md, and the rows that docs/BENCH.md has of it into that page. --check only looks
whether each file is there and has the old text once, which is looked at first in any case, and whether FORMS.md has
each row of docs/BENCH.md.
"""

from __future__ import annotations

import argparse
import re
import shutil
import sys
import tempfile
from pathlib import Path
from typing import NamedTuple

from instructions import OUT, SETS, Run, ending, mean, taken
from page import put, table
from unproved import built, crates_of

HERE = Path(__file__).resolve().parent
TOP = HERE.parent.parent
WHOLE, SOME = HERE / "FORMS.md", TOP / "docs" / "BENCH.md"
HEAD = "| Form | Instead | Where | Counted on | Ratio |"
LINE = re.compile(r"(# (?:form|instead|set)|file|old|new):(?: (.*))?")
NAMED = re.compile(r"(?m)^ *(?:pub(?:\(crate\))? )?(?:const )?(?:fn|struct|enum|impl|trait|const) +(\w+)")


class Change(NamedTuple):
    file: str
    old: str
    new: str


class Form(NamedTuple):
    """What stands, what instead, on which set it is counted, and the changes that lead from the one to the other."""

    name: str
    stands: str
    instead: str
    set: str
    changes: list[Change]


def read(name: str, block: str) -> Form:
    said: dict[str, str] = {}
    changes: list[Change] = []
    before = ""
    for line in block.rstrip("\n").splitlines():
        if not (found := LINE.fullmatch(line)):
            raise SystemExit(f"forms.edits: {name}: what is {line!r}?")
        key, text = found[1], found[2] or ""
        if key == "new" and before == "new":
            changes[-1] = changes[-1]._replace(new=f"{changes[-1].new}\n{text}")
        elif key == "new":
            changes.append(Change(said["file"], said["old"], text))
        else:
            said[key] = f"{said[key]}\n{text}" if key == before == "old" else text
        before = key
    return Form(name, said["# form"], said["# instead"], said["# set"], changes)


def read_all() -> list[Form]:
    parts = re.split(r"^# (\w+)\n", (HERE / "forms.edits").read_text(), flags=re.MULTILINE)
    return [read(name, block) for name, block in zip(parts[1::2], parts[2::2])]


def planted(form: Form, tree: Path) -> dict[Path, str]:
    """The files of a tree that a form changes, with its changes."""
    texts: dict[Path, str] = {}
    for file, old, new in form.changes:
        if not (tree / file).exists():
            raise ValueError(f"{form.name}: there is no {file}")
        text = texts.get(tree / file) or (tree / file).read_text()
        if text.count(old) != 1:
            raise ValueError(f"{form.name}: this stands in {file} {text.count(old)} times:\n{old}")
        texts[tree / file] = text.replace(old, new)
    return texts


def stale(forms: list[Form]) -> list[str]:
    """What is to be said of forms whose file is gone, or whose old text doesn't stand in the sources once."""
    told = []
    for form in forms:
        try:
            planted(form, TOP)
        except ValueError as fault:
            told.append(str(fault))
    return told


def copy(program: str, to: Path) -> None:
    """The sources that a program is built of."""
    names = crates_of(TOP, program)
    for name in names:
        shutil.copytree(TOP / "crates" / name / "src", to / "crates" / name / "src")
    lines = (TOP / "crates.txt").read_text().splitlines(keepends=True)
    (to / "crates.txt").write_text("".join(it for it in lines if re.split(r"\W", it)[0] in names))
    shutil.copy(TOP / "HANDLES", to)


def place(form: Form) -> str:
    """Where the form stands: the file, and the function, type or constant that its first change is in."""
    file, old, _ = form.changes[0]
    text = (TOP / file).read_text()
    names = NAMED.findall(text[: text.index(old) + len(old)])
    module = file.removeprefix("crates/").replace("/src/", "/").removesuffix(".rt")
    return ", ".join(f"`{it}`" for it in [module, *names[-1:]])


def ratio(form: Form) -> float:
    """The instructions of the code as it stands to those with the form's edit."""
    ratios = []
    for run in SETS[form.set]:
        with tempfile.TemporaryDirectory() as name:
            copy(run.program, Path(name))
            for file, text in planted(form, Path(name)).items():
                file.write_text(text)
            other = built(Path(name), run.program, OUT / "unproved").parent
        ours = built(TOP, run.program, OUT / "unproved").parent
        if ending(ours, run) != ending(other, run):
            raise SystemExit(f"{form.name}: on {run.problem} it ends with {ending(other, run)}")
        ratios.append(taken(ours, run) / taken(other, run))
    return mean(ratios)


def row_of(row: str) -> tuple[str, str, str]:
    """What a row of the table is about, whatever the place and the ratio are."""
    form, instead, _, counted, _ = row.strip("| ").split(" | ")
    return form, instead, counted


def renewed(rows: list[str], made: list[str]) -> list[str]:
    """Some rows, in their order, as they were made anew; those that no form has any more are dropped."""
    anew = {row_of(it): it for it in made}
    return [anew[row_of(it)] for it in rows if row_of(it) in anew]


def told(runs: list[Run]) -> str:
    return ", ".join(f"{it.problem}" + (" `m1`" if it.less else "") for it in runs)


def main() -> None:
    parser = argparse.ArgumentParser(description=__doc__, formatter_class=argparse.RawDescriptionHelpFormatter)
    parser.add_argument("--check", action="store_true")
    parser.add_argument("--page", action="store_true")
    parser.add_argument("name", nargs="*")
    given = parser.parse_args()
    forms = read_all()
    if strange := set(given.name) - {it.name for it in forms}:
        parser.error(f"forms.edits has no {', '.join(sorted(strange))}")
    if given.name and given.page:
        parser.error("the page is of all forms")
    forms = [it for it in forms if not given.name or it.name in given.name]
    faults = stale(forms)
    if given.check:
        whole = table(WHOLE, HEAD)
        faults += [f"FORMS.md has no such row as BENCH.md: {it}" for it in table(SOME, HEAD) if it not in whole]
    if faults or given.check:
        sys.exit("\n".join(faults) or 0)
    lines, failed = [HEAD, "|---|---|---|---|---|"], 0
    print("\n".join(lines), flush=True)
    for form in forms:
        try:
            found = f"{ratio(form):.3f}"
        except SystemExit as fault:
            print(f"{form.name}: {fault}", file=sys.stderr, flush=True)
            failed += 1
            continue
        cells = [form.stands, form.instead, place(form), form.set, found]
        lines.append("| " + " | ".join(cells) + " |")
        print(lines[-1], flush=True)
    for name in sorted({it.set for it in forms}):
        print(f"{name}: {told(SETS[name])}", file=sys.stderr)
    if given.page and not failed:
        put(WHOLE, lines)
        put(SOME, lines[:2] + renewed(table(SOME, HEAD)[2:], lines[2:]))
    sys.exit(failed > 0)


if __name__ == "__main__":
    main()
