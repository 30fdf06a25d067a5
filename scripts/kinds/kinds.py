#!/usr/bin/env python3
"""kinds.py [--check]: writes docs/kinds/KIND.md and KIND.svg, a page with a picture for each kind of problem.

A page is made from the docstring of the kind's module, the arguments of its command, and texts/KIND.md beside this
script: its first line is the command whose picture is drawn, the rest are words and commands, of which the page has the
outputs too. The programs and the command are those in `bin`, or else of the path. With --check what differs is
printed, also of the table of kinds in docs/GUIDE.md, and the status is 1 if anything does.
"""

from __future__ import annotations

import argparse
import inspect
import os
import re
import subprocess
import sys
import tempfile
from collections.abc import Iterator
from difflib import unified_diff
from pathlib import Path

TOP = Path(__file__).resolve().parents[2]
TEXTS = Path(__file__).resolve().parent / "texts"
FOLDER, GUIDE = TOP / "docs" / "kinds", TOP / "docs" / "GUIDE.md"
sys.path.insert(0, str(TOP / "python"))
sys.dont_write_bytecode = True

from helgrothy import make  # noqa: E402
from helgrothy._page.terms import TITLES  # noqa: E402
from helgrothy.make._kind import Kind  # noqa: E402

_BLOCK = re.compile(r"^```sh\n(.*?)^```\n", re.MULTILINE | re.DOTALL)
_REST = (
    "What all kinds take, such as `--count`, `--random` and `--html`, is in "
    "[GUIDE.md](../GUIDE.md#which-solutions-and-how-they-are-shown)."
)


def pages() -> Iterator[tuple[Path, str]]:
    """The files of all kinds and what is to be in them."""
    for name, kind in make.KINDS.items():
        first, _, text = (TEXTS / f"{name}.md").read_text().partition("\n")
        picture = first.partition("picture: ")[2]
        outputs, svg = _run([block.group(1) for block in _BLOCK.finditer(text)], f"{picture} --svg")
        yield FOLDER / f"{name}.md", _page(kind, picture, _BLOCK.sub(lambda block: _shown(block, outputs), text))
        yield FOLDER / f"{name}.svg", svg


def _run(blocks: list[str], picture: str) -> tuple[list[str], str]:
    """What each block of commands prints, pasted one after another into a shell, and then what draws the picture."""
    with tempfile.TemporaryDirectory() as folder:
        path = f"{TOP / 'bin'}:{os.environ['PATH']}"
        parts = [f"{{\n{block}}} >.out{number} 2>&1 </dev/null\n" for number, block in enumerate(blocks)]
        script = "".join([*parts, f"{picture} >.svg 2>/dev/null\n"])
        subprocess.run(["sh", "-c", script], cwd=folder, env={**os.environ, "PATH": path}, check=True)
        outputs = [(Path(folder) / f".out{number}").read_text() for number in range(len(blocks))]
        return outputs, (Path(folder) / ".svg").read_text()


def _shown(block: re.Match[str], outputs: list[str]) -> str:
    """A block, and behind it what it prints."""
    output = outputs.pop(0)
    return block.group() + (f"\n```\n{output}```\n" if output else "")


def _page(kind: Kind, picture: str, text: str) -> str:
    module = inspect.getmodule(kind.make)
    about = (inspect.getdoc(module) or "").partition("\n\n")[0].replace("\n", " ")
    places, options = _arguments(kind)
    call = inspect.signature(module.problem).replace(return_annotation=inspect.Signature.empty)
    return "".join(
        [
            f"# {TITLES[kind.name]}: `helgrothy {kind.name}`\n",
            f"{about}\n\n",
            f"![what `{picture} --svg` draws]({kind.name}.svg)\n\n",
            f"{text.strip()}\n\n",
            f"## What `helgrothy {kind.name}` takes\n",
            "| Argument | What it is |\n|---|---|\n",
            *(f"| {name} | {_cell(help)} |\n" for name, help in [*places, *options]),
            f"\n{_REST} In Python:\n\n",
            f"    helgrothy.make.{kind.name}.problem{_plain(call)}\n",
        ]
    )


def _arguments(kind: Kind) -> tuple[list[tuple[str, str]], list[tuple[str, str]]]:
    """The arguments of a kind, and then its own options: the name of each, and what it is."""
    parser = argparse.ArgumentParser(add_help=False)
    kind.add_arguments(parser)
    common = len(parser._actions)
    kind.add_search_arguments(parser)
    places: list[tuple[str, str]] = []
    options: list[tuple[str, str]] = []
    for number, action in enumerate(parser._actions):
        help = " ".join((action.help or "").split())
        if number >= common and not action.option_strings:
            continue
        if not action.option_strings:
            optional = " (may be missing)" if action.nargs == "?" else ""
            places.append((f"`{action.metavar}`{optional}".replace("|", r"\|"), help))
            continue
        value = action.metavar or ("|".join(action.choices) if action.choices else action.dest.upper())
        word = action.option_strings[-1] + ("" if action.nargs == 0 else f" {value}")
        options.append((f"`{word}`".replace("|", r"\|"), help))
    return places, options


def _cell(text: str) -> str:
    """A text in a table, as a sentence."""
    text = text.replace("|", r"\|")
    return f"{text[:1].upper()}{text[1:]}."


def _plain(call: inspect.Signature) -> str:
    """A call by its names and defaults, without types."""
    plain = [part.replace(annotation=inspect.Parameter.empty) for part in call.parameters.values()]
    return str(call.replace(parameters=plain))


def rows() -> Iterator[str]:
    """The lines of the table in docs/GUIDE.md."""
    for name, help in make.HELPS.items():
        yield f"| [`{name}`](kinds/{name}.md) | {help} |"


def _differs(path: Path, found: str, wanted: str) -> Iterator[str]:
    name = str(path.relative_to(TOP))
    return unified_diff(found.splitlines(), wanted.splitlines(), name, "made", n=0, lineterm="")


def main() -> int:
    if sys.argv[1:] not in ([], ["--check"]):
        print(__doc__)
        return 0 if sys.argv[1] in ("-h", "--help") else 1
    wanted = dict(pages())
    if not sys.argv[1:]:
        FOLDER.mkdir(exist_ok=True)
        for path in set(FOLDER.iterdir()) - set(wanted):
            path.unlink()
        for path, text in wanted.items():
            path.write_text(text)
        return 0
    found = {path: path.read_text() for path in FOLDER.iterdir()} if FOLDER.exists() else {}
    differs = [
        line
        for path in sorted({*found, *wanted})
        for line in _differs(path, found.get(path, ""), wanted.get(path, ""))
    ]
    differs += [f"docs/GUIDE.md lacks: {row}" for row in rows() if f"{row}\n" not in GUIDE.read_text()]
    print(*differs, sep="\n", end="\n" if differs else "")
    return 1 if differs else 0


sys.exit(main())
