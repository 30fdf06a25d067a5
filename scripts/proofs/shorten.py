#!/usr/bin/env python3
"""shorten.py CRATE [FILE..] [--jobs N] [--rounds N]: shortens the proofs of a crate by what the kit's tactics find.

Each proof in crates/CRATE/proofs, or in these files and folders there, is tried in shorter forms: as one call of grind
over the lemmas that it names, by their names or with the arguments that they have there; with its last steps or one
part of it left to the tactic; and without a helper that few proofs cite, if each of them passes without it. All are
put beside the proofs of a copy of the repository, as lemmas of other names, and one check shows which of them pass.
The shortest that passes takes the place of each proof; another check takes back what doesn't pass there. It ends when
a round finds nothing more, or after so many rounds (with --rounds 0 none is made). What is short may be costly: last,
each search leaves std's common steps out where it passes without them, and cost.py shows which of those that are left
cost most. The working tree gets the proofs in the end, formatted: look at the difference, and run the gate. No
statement changes, and nothing but proofs.

A copy is in the folder for temporary files, takes what other checks kept, and is removed. Two rounds over the 290
lines of xc_tools, with the crates below it, took seven minutes of a processor, and found 60 lines.
"""
import argparse
import shutil
import subprocess
import sys
import tempfile
from pathlib import Path

sys.dont_write_bytecode = True

from common_steps import without_common_steps  # noqa: E402
from rounds import Crate, changes  # noqa: E402

TOP = Path(__file__).resolve().parents[2]


def shorten(name: str, only: list[str], jobs: int, rounds: int) -> int:
    """Shortens the proofs of a crate in a copy of the repository, and takes them from there."""
    with tempfile.TemporaryDirectory() as folder:
        copy = Path(folder) / "copy"
        shutil.copytree(TOP, copy, ignore=shutil.ignore_patterns("out", ".git"))
        crate = Crate(copy, name, only)
        for _ in range(rounds):
            saved = sum(change.saved for change in crate.put(changes(crate.passing(jobs)), jobs))
            print(f"{name}: {saved} lines shorter", file=sys.stderr, flush=True)
            if saved == 0:
                break
        plainer = without_common_steps(crate, jobs)
        print(f"{name}: {plainer} lines without common steps", file=sys.stderr, flush=True)
        subprocess.run(["rt", "fmt"], cwd=crate.folder, capture_output=True, check=False)
        passes, told = crate.check(jobs)
        if not passes:
            print(f"{told}{name}: not proved in the end, so nothing is changed", file=sys.stderr)
            return 1
        proofs = Path("crates") / name / "proofs"
        shutil.rmtree(TOP / proofs)
        shutil.copytree(copy / proofs, TOP / proofs)
    return 0


def main() -> int:
    parser = argparse.ArgumentParser(description=__doc__, formatter_class=argparse.RawDescriptionHelpFormatter)
    parser.add_argument("crate")
    parser.add_argument("files", nargs="*", metavar="FILE", help="files or folders in its proofs (all)")
    parser.add_argument("--jobs", type=int, default=2, help="jobs of a check (2)")
    parser.add_argument("--rounds", type=int, default=3, help="rounds at most (3)")
    given = parser.parse_args()
    if not (TOP / "crates" / given.crate / "proofs").is_dir():
        parser.error(f"{given.crate} has no proofs")
    for file in given.files:
        if not (TOP / "crates" / given.crate / "proofs" / file).exists():
            parser.error(f"no {file} in its proofs")
    return shorten(given.crate, given.files, given.jobs, given.rounds)


if __name__ == "__main__":
    sys.exit(main())
