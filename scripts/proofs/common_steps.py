"""Searches without std's common steps, where they pass without them. That is often cheaper; no time is looked at."""
import re
from pathlib import Path

from proof_text import SIGNATURE
from rounds import Crate, without_unused

STEPS = "common_steps"
ERROR = re.compile(r"^\./(proofs/[^:\n]*\.antt):(\d+):\d+: error: (?!.*not checked:)", re.MULTILINE)


def plain(line: str) -> str:
    """The line without the common steps in lists of tactics."""
    line = line.replace(f"grind (arith, {STEPS})", "grind arith")
    return line.replace(f", {STEPS}", "").replace(f"{STEPS}, ", "")


def declaration(lines: list[str], number: int) -> range:
    """The lines of the declaration in which this one stands."""
    begins = [at for at, line in enumerate(lines) if SIGNATURE.match(line) and not line.startswith("   ")]
    start = max((at for at in begins if at <= number), default=0)
    return range(start, min((at for at in begins if at > number), default=len(lines)))


def set_plain(crate: Crate, kept: set[tuple[Path, int]]) -> int:
    """Writes the files so, but for the lines that are kept, and returns how many lines changed."""
    count = 0
    for file, lines in crate.lines.items():
        if not crate.is_tried(file):
            continue
        changed = [
            line if (file, at) in kept or re.match(r"\s*(pub |unfoldable )*use ", line) else plain(line)
            for at, line in enumerate(lines)
        ]
        count += sum(new != old for new, old in zip(changed, lines))
        file.write_text(without_unused("\n".join(changed)) if changed != lines else "\n".join(lines))
    return count


def without_common_steps(crate: Crate, jobs: int) -> int:
    """Leaves the common steps out of each search of a crate that passes so, and returns of how many lines."""
    kept: set[tuple[Path, int]] = set()
    while count := set_plain(crate, kept):
        passes, told = crate.check(jobs)
        if passes:
            break
        before = len(kept)
        for match in ERROR.finditer(told):
            file = crate.folder / match.group(1)
            # imports that went stood above the line
            gone = len(crate.lines[file]) - file.read_text().count("\n") - 1
            kept |= {(file, at) for at in declaration(crate.lines[file], int(match.group(2)) - 1 + gone)}
        if len(kept) == before:
            kept |= {(file, at) for file, lines in crate.lines.items() for at in range(len(lines))}
    crate.read()
    return count
