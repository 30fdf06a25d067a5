"""Runs of dlx-none, which judges whether a proof, or weights of the items, show that a problem has no solution.

It reads the problem and makes the clauses itself, so neither who wrote a proof nor who found weights has to be
believed. That there is no solution needs its line and its status.
"""

from __future__ import annotations

import shutil
from collections.abc import Hashable, Mapping, Sequence
from contextlib import ExitStack
from typing import IO, Any

from .._text.shown import bytes_of
from ..errors import ProblemFault
from ..problem import Problem
from .programs import Run

PROGRAM = "dlx-none"
# What it may have of memory, in which it keeps the clauses and the proof.
MEMORY = 4 << 30
# What it says where it is shown that there is no solution, and its status where it isn't.
_NONE, _NOT_SHOWN = "No solution.", 5


def clauses(problem: Problem[Any], seconds: float | None = None) -> bytes:
    """The clauses of a problem, of which dlx-none judges a proof. Raises as `Run` does, and `ProgramFailed`."""
    with _file("dlx") as file:
        _write(file, problem)
        with Run(PROGRAM, [str(problem.kind), file.name], [], seconds, MEMORY) as run:
            text = b"".join(run.chunks())
            if run.status() != 0:
                raise run.failure()
    return text


def by_proof(problem: Problem[Any], proof: bytes | IO[bytes] | IO[str], seconds: float | None = None) -> bool:
    """Whether a proof shows that a problem has no solution. Raises `ProgramFailed` and `OutOfTime`."""
    with _file("drat") as file:
        if isinstance(proof, bytes):
            file.write(proof)
        else:
            _copy(proof, file)
        file.flush()
        with Judging(problem, file.name, seconds=seconds) as judging:
            return judging.verdict()


def by_weights(problem: Problem[Any], weights: Mapping[Hashable, int], seconds: float | None = None) -> bool:
    """Whether weights of items, the others having none, show that a problem has no solution.

    Raises `ProblemFault` for an item that isn't the problem's, `ProgramFailed` and `OutOfTime`.
    """
    items = [*problem.items, *problem.secondary]
    other = weights.keys() - set(items)
    if other:
        raise ProblemFault(0, str(next(iter(other))), "unknown item")
    with _file("weights") as file:
        file.writelines(b"%d\n" % weights.get(item, 0) for item in items)
        file.flush()
        with Judging(problem, file.name, ["w"], seconds) as judging:
            return judging.verdict()


class Judging:
    """dlx-none at work on a problem and a file that may show that there is no solution. As a context manager it leaves
    nothing behind, however it is left.
    """

    def __init__(
        self, problem: Problem[Any], file: str, words: Sequence[str] = (), seconds: float | None = None
    ) -> None:
        """The problem is written anew, to a file that nobody else knows of."""
        with ExitStack() as stack:
            written = stack.enter_context(_file("dlx"))
            _write(written, problem)
            words = [str(problem.kind), written.name, file, *words]
            self._run = stack.enter_context(Run(PROGRAM, words, [], seconds, MEMORY))
            self._stack = stack.pop_all()

    def __enter__(self) -> Judging:
        return self

    def __exit__(self, *_: object) -> None:
        self._stack.close()

    def is_over(self) -> bool:
        """Whether it has ended. Raises `OutOfTime`."""
        return self._run.is_over()

    def verdict(self) -> bool:
        """Whether it is shown that there is no solution. Raises `ProgramFailed` and `OutOfTime`."""
        for _ in self._run.chunks():
            pass
        status = self._run.status()
        if status == 0 and self._run.messages() == _NONE:
            return True
        if status == _NOT_SHOWN:
            return False
        raise self._run.failure()


def _file(kind: str) -> IO[bytes]:
    """A file with a name, which is gone once it is closed."""
    # Commands that judge nothing don't wait for this.
    import tempfile

    return tempfile.NamedTemporaryFile(suffix=f".{kind}")


def _write(file: IO[bytes], problem: Problem[Any]) -> None:
    file.writelines(bytes_of(f"{line}\n") for line in problem._lines())
    file.flush()


def _copy(given: IO[Any], file: IO[bytes]) -> None:
    if isinstance(given.read(0), str):
        file.writelines(map(bytes_of, given))
    else:
        shutil.copyfileobj(given, file)
