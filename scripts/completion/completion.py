#!/usr/bin/env python3
"""completion.py [compare]: writes release/completion.bash, .zsh and .fish, from the parsers of the commands.

With the word `compare` it says which of them differ from what they ought to be, and nothing else.
"""
import sys
from pathlib import Path

TOP = Path(__file__).resolve().parents[2]
sys.dont_write_bytecode = True
sys.path[:0] = [str(TOP / "python"), str(TOP / "scripts")]

from completion import shells  # noqa: E402


def main() -> int:
    compare = sys.argv[1:] == ["compare"]
    differ = False
    for name, text in shells.all_texts().items():
        file = TOP / "release" / f"completion.{name}"
        if not compare:
            file.write_text(text)
        elif not file.exists() or file.read_text() != text:
            print(f"{file.relative_to(TOP)} isn't as `make completion` writes it")
            differ = True
    return 1 if differ else 0


sys.exit(main())
