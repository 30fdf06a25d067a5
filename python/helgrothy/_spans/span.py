"""One span searched by the program dlx-span: what a worker does, on this machine or another one."""

from __future__ import annotations

import os
import signal
import subprocess
import threading
from contextlib import suppress
from typing import NamedTuple

from .. import __version__
from .._run.guard import let_go, start
from .._run.programs import find
from ..errors import ProgramFailed

PROGRAM = "dlx-span"
_CHUNK = 1 << 20


class Task(NamedTuple):
    """A span to search: of which problem and by which program, from where until where, and at most so many steps.

    No text of more than `most` bytes comes back, if it isn't 0; the run is then ended.
    """

    kind: int
    listed: bool
    problem: bytes
    start: str
    until: str
    steps: int
    most: int


class Ran(NamedTuple):
    """What a run printed (nothing where that was too long), and what it took of a processor."""

    text: bytes
    seconds: float
    is_too_long: bool
    version: str


class Stop:
    """Ends the runs of this process that were given to it, and lets none begin any more."""

    def __init__(self) -> None:
        self._lock = threading.Lock()
        self._running: set[int] = set()
        self.is_set = False

    def set(self) -> None:
        with self._lock:
            self.is_set = True
            for process in self._running:
                with suppress(OSError):
                    os.kill(process, signal.SIGKILL)

    def start(self, command: list[str]) -> subprocess.Popen[bytes] | None:
        """A process, or None where none may begin any more."""
        with self._lock:
            if self.is_set:
                return None
            process = _start(command)
            self._running.add(process.pid)
            return process

    def ended(self, process: int) -> None:
        """Asks that it wasn't waited for yet, so that no other process has its number."""
        with self._lock:
            self._running.discard(process)


def run(task: Task, stop: Stop | None = None) -> Ran:
    """Searches a span. Raises `ProgramNotFound`, `ProgramFailed` and `OSError`."""
    listed = "m1" if task.listed else "m0"
    command = [find(PROGRAM), str(task.kind), listed, str(task.steps), task.start, task.until]
    process = _start(command) if stop is None else stop.start(command)
    if process is None:
        raise ProgramFailed(PROGRAM, -signal.SIGKILL, "stopped")
    assert process.stdin and process.stdout and process.stderr
    text, errors, is_too_long = b"", b"", False
    try:
        # It reads all before it writes.
        with suppress(BrokenPipeError), process.stdin:
            process.stdin.write(task.problem)
        text = _read(process, task.most)
        is_too_long = bool(task.most) and len(text) > task.most
        if is_too_long:
            _kill(process)
        else:
            errors = process.stderr.read()
    except BaseException:
        _kill(process)
        raise
    finally:
        status, seconds = _end(process, stop)
    if is_too_long:
        return Ran(b"", seconds, True, __version__)
    if status != 0:
        raise ProgramFailed(PROGRAM, status, errors.decode("utf-8", "replace").strip())
    return Ran(text, seconds, False, __version__)


def _start(command: list[str]) -> subprocess.Popen[bytes]:
    return start(command, stdin=subprocess.PIPE, stdout=subprocess.PIPE, stderr=subprocess.PIPE)


def _kill(process: subprocess.Popen[bytes]) -> None:
    # `Popen.kill` would wait for a program that has ended, and `_end` does.
    os.kill(process.pid, signal.SIGKILL)


def _read(process: subprocess.Popen[bytes], most: int) -> bytes:
    """What is printed, or a beginning of more than so many bytes."""
    assert process.stdout
    out = process.stdout.fileno()
    pieces = []
    left = most
    while True:
        piece = os.read(out, _CHUNK)
        pieces.append(piece)
        left -= len(piece)
        if not piece or most and left < 0:
            return b"".join(pieces)


def _end(process: subprocess.Popen[bytes], stop: Stop | None) -> tuple[int, float]:
    """Leaves no process behind; its status, and its processor time."""
    assert process.stdin and process.stdout and process.stderr
    process.stdout.close()
    process.stderr.close()
    with suppress(OSError):
        process.stdin.close()
    os.waitid(os.P_PID, process.pid, os.WEXITED | os.WNOWAIT)
    if stop is not None:
        stop.ended(process.pid)
    _, status, used = os.wait4(process.pid, 0)
    process.returncode = os.waitstatus_to_exitcode(status)
    let_go(process.pid)
    return process.returncode, used.ru_utime + used.ru_stime
