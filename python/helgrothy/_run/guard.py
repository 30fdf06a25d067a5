"""Programs that end with the process that started them, however that ends.

A process has one shell beside it, which gets the programs that run, and kills them where its input ends, as it
does with the process. So a program needs nothing but a plain start, which costs a quarter of one that has Python ask
the system for that in the new process.
"""

from __future__ import annotations

import atexit
import os
import subprocess
import threading
from collections.abc import Sequence
from contextlib import suppress
from typing import Any

_SHELL = """\
while read -r what program; do
    others=
    for one in $all; do
        test "$one" = "$program" || others="$others $one"
    done
    all=$others
    test "$what" = end || all="$all $program"
done
test -z "$all" || kill -9 $all
"""


class _Guard:
    """A shell in a session of its own, so that no signal for the process or its terminal ends it first."""

    def __init__(self) -> None:
        self.owner = os.getpid()
        given, self.pipe = os.pipe()
        try:
            self._shell = subprocess.Popen(
                ["/bin/sh", "-c", _SHELL],
                stdin=given,
                stdout=subprocess.DEVNULL,
                stderr=subprocess.DEVNULL,
                cwd="/",
                start_new_session=True,
            )
        except BaseException:
            os.close(self.pipe)
            raise
        finally:
            os.close(given)
        atexit.register(self._end_at_exit)

    def end(self) -> None:
        """No more programs are reported. Who began the shell waits for it, so that nothing of it is left."""
        with suppress(OSError):
            os.close(self.pipe)
        self.pipe = -1
        if self.owner == os.getpid():
            with suppress(subprocess.TimeoutExpired, KeyboardInterrupt, SystemExit):
                self._shell.wait(1)
        self._shell.returncode = 0
        atexit.unregister(self._end_at_exit)

    def _end_at_exit(self) -> None:
        # A command whose work is done isn't stopped any more; what is broken off is done again.
        for _ in range(2):
            with suppress(KeyboardInterrupt, SystemExit):
                self.end()


_guard: _Guard | None = None
_lock = threading.Lock()


def start(command: Sequence[str], **pipes: Any) -> subprocess.Popen[bytes]:
    """Starts a program that is killed when this process ends. Asks that `let_go` is called once it was waited for.

    With `start_new_session` it is killed with all that it has begun, and `let_go` takes its number with a minus.

    A program that waits for what this process writes to it does nothing before the shell knows of it.
    """
    with _lock:
        _ready()
    process = subprocess.Popen(command, **pipes)
    try:
        _send("begin", -process.pid if pipes.get("start_new_session") else process.pid)
    except BaseException:
        process.kill()
        process.wait()
        raise
    return process


def let_go(program: int) -> None:
    """The program has ended, and was waited for."""
    _send("end", program)


def _send(what: str, program: int) -> None:
    global _guard
    with _lock:
        guard = _ready()
        if guard is not None:
            try:
                os.write(guard.pipe, f"{what} {program}\n".encode())
            except OSError:
                guard.end()
                _guard = None


def _ready() -> _Guard | None:
    """This process's shell. Where there is none to be had, programs run on without."""
    global _guard
    if _guard is not None and _guard.owner != os.getpid():
        # This process was forked from another one, whose shell it is.
        _guard.end()
        _guard = None
    if _guard is None:
        with suppress(OSError):
            _guard = _Guard()
    return _guard
