"""The command `helgrothy`, and `python3 -m helgrothy`: `--help` lists its commands."""

from __future__ import annotations

import sys
from collections.abc import Sequence
from typing import NoReturn


def main(words: Sequence[str] | None = None) -> int:
    """Does what the arguments of a command say; returns its status."""
    from ._cli import commands

    return commands.main(sys.argv[1:] if words is None else list(words))


def run() -> NoReturn:
    """The command `helgrothy` of an installed package."""
    sys.exit(main())


if __name__ == "__main__":
    run()
