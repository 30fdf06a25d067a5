"""Proofs that there is no solution, where the path has cadical: it writes one, and dlx-none judges it.

What an engine reports is a claim. Of clauses that dlx-none prints, cadical writes a proof that no values make all of
them true, and where dlx-none finds it right there is no solution, whatever cadical did and wrote. So cadical is asked
anew, also where the claim is its own: the clauses that it was given before aren't those.

Clauses and proof are files of a folder of its own. Once cadical has ended, what it has begun is killed, and dlx-none
gets the problem in another file: nothing that was in the folder is believed.
"""

from __future__ import annotations

import os
import shutil
import stat
import time
from typing import Any

from .._run import programs
from .._run.refutation import PROGRAM, Judging
from .._text.shown import bytes_of
from ..errors import OutOfTime, ProgramFailed, ProgramNotFound
from ..problem import Problem
from . import sat_solver
from .sat_solver import Work

SOLVER = "cadical"
# What is said where it is proved.
PROVED = f"no solution, proved: {PROGRAM} has checked a proof by {SOLVER}"
# Where no time is given a proof may take so long, and its judgement with it.
MOST_SECONDS = 60.0
# How many bytes the clauses may have, and a proof.
_MOST_FILE = 512 << 20
_PROBLEM, _CLAUSES, _PROOF = "problem.dlx", "clauses.cnf", "proof.drat"
_PROVE = f'"$1" "$2" {_PROBLEM} > {_CLAUSES} && exec "$3" -q {_CLAUSES} {_PROOF} > /dev/null 2>&1'
# One that is waited for is looked at so often.
_LOOK_SECONDS = 0.01


def are_possible() -> bool:
    """Whether the path has cadical, and there is a dlx-none that judges what it writes."""
    return sat_solver.path_of(SOLVER) is not None and programs.has(PROGRAM)


def prove(problem: Problem[Any], seconds: float) -> bool:
    """Whether it is proved in so many seconds that there is no solution."""
    if seconds <= 0 or not are_possible():
        return False
    try:
        with Proving(problem, seconds) as proving:
            while proving.verdict() is None:
                time.sleep(_LOOK_SECONDS)
            return bool(proving.verdict())
    except (OSError, ProgramNotFound):
        return False


class Proving(Work):
    """cadical at work on a proof, and then dlx-none on the judgement. As a context manager it leaves nothing behind.

    name: which of them it is.
    """

    def __init__(self, problem: Problem[Any], seconds: float) -> None:
        """seconds: for both of them. Raises `ProgramNotFound`."""
        # A command loads this module before it knows whether it asks for a proof.
        import tempfile

        self.name = SOLVER
        self._problem = problem
        self._deadline = time.monotonic() + seconds
        self._is_proved: bool | None = None
        self._judging: Judging | None = None
        self._folder = tempfile.mkdtemp(prefix="helgrothy-")
        try:
            self._begin_proof()
        except BaseException:
            self._drop_folder()
            raise

    def _begin_proof(self) -> None:
        path = sat_solver.path_of(SOLVER)
        if path is None:
            raise ProgramNotFound(f"{SOLVER} isn't on the path")
        with open(os.path.join(self._folder, _PROBLEM), "wb") as file:
            file.writelines(bytes_of(f"{line}\n") for line in self._problem._lines())
        words = [programs.find(PROGRAM), str(self._problem.kind), path]
        self._begin(["/bin/sh", "-c", _PROVE, "sh", *words], (), folder=self._folder, most=_MOST_FILE)

    def __enter__(self) -> Proving:
        return self

    def __exit__(self, *_: object) -> None:
        super().__exit__()
        if self._judging is not None:
            self._judging.__exit__()
        self._drop_folder()

    def _drop_folder(self) -> None:
        shutil.rmtree(self._folder, ignore_errors=True)

    def verdict(self) -> bool | None:
        """Whether it is proved that there is no solution; None while that isn't known."""
        if self._is_proved is None:
            try:
                self._is_proved = self._looked()
            except (OSError, ProgramFailed, ProgramNotFound):
                # That the time is over is an `OSError` too.
                self._is_proved = False
        return self._is_proved

    def _looked(self) -> bool | None:
        """The verdict, after the next step where it is time for it. Raises as `Judging` does."""
        left = self._deadline - time.monotonic()
        if left <= 0:
            raise OutOfTime("the time was over before a proof")
        if self._judging is not None:
            return self._judging.verdict() if self._judging.is_over() else None
        ended = self._ended()
        if ended is None:
            return None
        # Nothing is written any more.
        self.kill()
        proof = os.path.join(self._folder, _PROOF)
        is_none = ended.si_code == os.CLD_EXITED and ended.si_status == sat_solver.NONE
        # Of a pipe or a device there would be no end.
        if not is_none or not stat.S_ISREG(os.lstat(proof).st_mode):
            return False
        self.name = PROGRAM
        self._judging = Judging(self._problem, proof, seconds=left)
        return None
