"""Tables of a page."""

from __future__ import annotations

from pathlib import Path


def found(page: str | Path, head: str) -> tuple[list[str], slice]:
    """The lines of a page, and which of them are the table with a head."""
    lines = Path(page).read_text(encoding="utf-8").split("\n")
    if head not in lines:
        raise SystemExit(f"{page} has no table with the head {head}")
    at = lines.index(head)
    return lines, slice(at, next(k for k in range(at, len(lines)) if not lines[k].startswith("|")))


def table(page: str | Path, head: str) -> list[str]:
    """The table with a head, as its lines."""
    lines, here = found(page, head)
    return lines[here]


def put(page: str | Path, made: list[str]) -> None:
    """Puts a table, as its lines, in the place of that with the same head."""
    lines, here = found(page, made[0])
    lines[here] = made
    Path(page).write_text("\n".join(lines), encoding="utf-8")
