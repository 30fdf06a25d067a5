"""The processes that answer requests of the local page, and how what one says is passed on."""

from __future__ import annotations

import os
import select
import signal
import socket
import subprocess
import sys
import threading
import time
from contextlib import suppress
from pathlib import Path

from .answer import MOST_SECONDS
from .folders import Folder

# Seconds for a process to end, and those that an answer may take beyond its own.
_PATIENCE = 20.0
_MORE_SECONDS = 30.0
_CHUNK = 1 << 16
# What a process that answers runs, from where this package lies. Where other packages lie beside it, as in
# site-packages, none of them may stand for a module of Python.
_ANSWER = """\
import sys
package = sys.argv.pop(1)
sys.path.insert(len(sys.path) if package.endswith("-packages") else 0, package)
from helgrothy._page.answer import run
run()
"""
_BYTECODE = ["-B"] if sys.dont_write_bytecode else []
_PACKAGE = str(Path(__file__).absolute().parents[2])


def pass_on(connection: socket.socket, answer: Answer) -> bool:
    """Passes an answer on as it comes, as long as anybody is there for it. Returns whether it breaks off."""
    deadline = time.monotonic() + MOST_SECONDS + _MORE_SECONDS
    while True:
        ready = select.select([answer.out, connection], [], [], max(deadline - time.monotonic(), 0))[0]
        if connection in ready:
            # Whoever asked is gone, or says more than is wanted.
            return False
        chunk = answer.read() if ready else b""
        if not chunk:
            break
        connection.sendall(chunk)
    return not (ready and answer.is_whole())


class Answer:
    """A process that answers a request, in a folder of its own, and in a group with the programs that it runs.

    Raises `OSError`.
    """

    def __init__(self, request: bytes) -> None:
        self._lock = threading.Lock()
        self._folder = Folder()
        try:
            self._process = subprocess.Popen(
                [sys.executable, "-I", *_BYTECODE, "-c", _ANSWER, _PACKAGE],
                stdin=subprocess.PIPE,
                stdout=subprocess.PIPE,
                stderr=subprocess.DEVNULL,
                cwd=self._folder.work,
                pass_fds=[self._folder.lock],
                start_new_session=True,
                bufsize=0,
            )
        except BaseException:
            self._folder.remove()
            raise
        assert self._process.stdin is not None and self._process.stdout is not None
        self.out = self._process.stdout.fileno()
        raw = memoryview(b"%d\n%b" % (len(request), request))
        with suppress(BrokenPipeError):
            while raw:
                raw = raw[self._process.stdin.write(raw) :]

    def read(self) -> bytes:
        """What the process says next; nothing at its end."""
        return os.read(self.out, _CHUNK)

    def is_whole(self) -> bool:
        """Whether the process, which says no more, ended by itself."""
        with suppress(subprocess.TimeoutExpired):
            return self._process.wait(_PATIENCE) == 0
        return False

    def close(self) -> None:
        """Ends the process and its programs, if they still run, and removes the folder."""
        with self._lock:
            if self._process.stdin is None or self._process.stdin.closed:
                return
            # The group is there as long as its first process wasn't waited for, whether that runs or not.
            if self._process.returncode is None:
                with suppress(OSError):
                    os.killpg(self._process.pid, signal.SIGKILL)
            self._process.wait()
            for pipe in (self._process.stdin, self._process.stdout):
                if pipe is not None:
                    pipe.close()
            self._folder.remove()
