"""The programs: where they are, and how one is run.

A program is looked for in the folders of `HELGROTHY_BIN`, which are parted by colons, then beside the package (`bin`
in it, as an installed wheel has it; `bin` of an unpacked release; where a repository builds it), and last on the path.
Of both variables only whole paths count: what lies in the current folder is never run.
"""

from __future__ import annotations

import os
import re
import select
import signal
import stat
import subprocess
import time
from collections.abc import Callable, Iterable, Iterator, Sequence
from contextlib import contextmanager, suppress
from typing import IO, Protocol

from ..errors import OutOfTime, ProgramFailed, ProgramNotFound
from . import guard

PROGRAMS = ("dlx1", "dlx2", "dlx3", "dlxcheck", "dlx-span", "dlx-join", "dlx-count", "dlx-none")
VARIABLE = "HELGROTHY_BIN"
_CHUNK = 1 << 18
# The system takes no longer times.
_LONGEST = 1e9
_NICE = 10
_LIMITED = 'ulimit -v "$1"; shift; exec "$@"'
_LOOK_SECONDS = 0.1
_LAST_LINE = re.compile(r"Altogether (\d+) solutions?( \(limit\))?\.\Z")
# Python reads so many digits at once.
_DIGITS = 4000


def folders(program: str) -> list[str]:
    """The folders in which a program is looked for before the path, in their order."""
    package, top = _package(), _top()
    beside = [os.path.join(package, "bin")]
    # Anybody may make a `bin` beside a package that lies in a folder of /tmp.
    if _is_anybodys(package) or not _is_anybodys(top):
        beside += [os.path.join(top, "bin"), os.path.join(top, "crates", program, "out")]
    return _given(package) + beside


def _given(package: str) -> list[str]:
    """The folders of the variable, of which the command's own folder is one."""
    # A folder's name may have colons in it: one parts two folders only where the second is a whole path.
    parts = re.split(r":+(?=/)|:+\Z", os.environ.get(VARIABLE, ""))
    # And where such a name ends with one, what stands before it is a part of the command's own folder.
    return [it for it in parts if os.path.isabs(it) and not re.match(re.escape(it) + ":+/", package)]


def _package() -> str:
    # No link is followed: the programs are beside the package as it is named.
    return os.path.dirname(os.path.dirname(os.path.abspath(__file__)))


def _top() -> str:
    """The folder of a repository or a release that the package is of, where it is of one."""
    return os.path.dirname(os.path.dirname(_package()))


def _is_anybodys(folder: str) -> bool:
    """Whether all users may write into a folder."""
    return bool(os.stat(folder).st_mode & stat.S_IWOTH)


def find(program: str) -> str:
    """The path of a program. Raises `ProgramNotFound`."""
    on_path = [folder for folder in os.environ.get("PATH", os.defpath).split(os.pathsep) if os.path.isabs(folder)]
    for folder in [*folders(program), *on_path]:
        path = os.path.join(folder, program)
        if os.path.isfile(path) and os.access(path, os.X_OK):
            return path
    raise ProgramNotFound(_not_found(program))


def _not_found(program: str) -> str:
    top = _top()
    if os.path.isfile(os.path.join(top, "crates.txt")):
        return f"{program} isn't built; `make all` in {top} builds all programs, or {VARIABLE} names their folder"
    return f"{program} is neither beside the package nor on the path; name its folder by {VARIABLE}"


def has(program: str) -> bool:
    """Whether a program is found."""
    try:
        find(program)
    except ProgramNotFound:
        return False
    return True


def processors() -> int:
    """How many processors this process may use."""
    return len(os.sched_getaffinity(0))


@contextmanager
def undisturbed() -> Iterator[None]:
    """A clock that has run down is heard after this.

    An exception amid the start of a program would leave it running with nobody who ends it, and one amid the start of
    a thread becomes one that is meant for nobody.
    """
    before = signal.pthread_sigmask(signal.SIG_BLOCK, [signal.SIGALRM])
    try:
        yield
    finally:
        signal.pthread_sigmask(signal.SIG_SETMASK, before)


class Running(Protocol):
    """A process that can be ended."""

    def kill(self) -> None: ...

    def wait(self) -> object: ...


_running: set[Running] = set()


def end_all() -> None:
    """Ends the programs that run: after an exception that came while one was being ended."""
    for process in list(_running):
        process.kill()
        process.wait()
        if isinstance(process, subprocess.Popen):
            guard.let_go(process.pid)
        _running.discard(process)


def worked(program: int, begun: float) -> float:
    """How many seconds of a processor a program has had; since it was begun, where the system doesn't say that."""
    try:
        with open(f"/proc/{program}/stat", "rb") as file:
            # A name may have any byte in it.
            words = file.read().rpartition(b")")[2].split()
        return (int(words[11]) + int(words[12])) / os.sysconf("SC_CLK_TCK")
    except (OSError, ValueError, IndexError):
        return time.monotonic() - begun


class Run:
    """A run of a program over a text. As a context manager it leaves no process behind, however it is left; nor does a
    process that is killed meanwhile.

    The text goes through a file without a name, so that neither side waits for the other. `seconds` bounds the
    time of the whole run, and `memory` how many bytes it may have.
    """

    def __init__(
        self,
        program: str,
        words: Sequence[str],
        text: Iterable[bytes],
        seconds: float | None = None,
        memory: int | None = None,
    ) -> None:
        # A search in spans needs none of what this loads.
        import tempfile

        command = [find(program), *words]
        if memory is not None:
            command = ["/bin/sh", "-c", _LIMITED, "sh", str(memory >> 10), *command]
        self.program = program
        # Whether its output came to an end.
        self.has_ended = False
        self._begun = time.monotonic()
        self._is_paused = False
        self._deadline = None if seconds is None else self._begun + min(seconds, _LONGEST)
        with tempfile.TemporaryFile() as given:
            given.writelines(text)
            given.seek(0)
            self._errors: IO[bytes] = tempfile.TemporaryFile()
            self._process = _begun(command, given, self._errors)

    def __enter__(self) -> Run:
        return self

    def __exit__(self, *_: object) -> None:
        _end(self._process)
        self.go_on()
        self._errors.close()

    def chunks(
        self, meanwhile: Callable[[Run], object] | None = None, until: Run | None = None
    ) -> Iterator[bytes]:
        """What the program prints, as it comes, until it ends or another run does. Raises `OutOfTime`.

        meanwhile: is called with this run some times a second while neither prints anything.
        """
        out = self.fileno()
        widen(out)
        is_watched = self._deadline is not None or meanwhile is not None or until is not None
        while True:
            if is_watched and not self._is_first(until, meanwhile):
                return
            chunk = os.read(out, _CHUNK)
            if not chunk:
                self.has_ended = True
                return
            yield chunk

    def _is_first(self, other: Run | None, meanwhile: Callable[[Run], object] | None) -> bool:
        """Waits for the program's output or the other's, and says whether it is the program's."""
        both = [self] if other is None else [self, other]
        while True:
            left = self._time_left()
            if left <= 0:
                raise self._out_of_time()
            most = left if meanwhile is None else min(left, _LOOK_SECONDS)
            ready = select.select(both, [], [], None if most == float("inf") else most)[0]
            if ready:
                return self in ready
            if meanwhile is not None:
                meanwhile(self)

    def fileno(self) -> int:
        """The program's output."""
        assert self._process.stdout is not None
        return self._process.stdout.fileno()

    def go_behind(self) -> None:
        """Lets processes of the usual priority go before this one, which loses nothing on a processor of its own."""
        with suppress(OSError):
            os.setpriority(os.PRIO_PROCESS, self._process.pid, os.getpriority(os.PRIO_PROCESS, 0) + _NICE)

    def _time_left(self) -> float:
        return float("inf") if self._deadline is None else self._deadline - time.monotonic()

    def status(self) -> int:
        """The status, once the output was read to its end."""
        left = None if self._deadline is None else max(self._time_left(), 0)
        try:
            return self._process.wait(left)
        except subprocess.TimeoutExpired:
            raise self._out_of_time() from None

    def is_over(self) -> bool:
        """Whether it has ended, as one may that prints little. Raises `OutOfTime`."""
        if self._process.poll() is not None:
            return True
        if self._time_left() <= 0:
            raise self._out_of_time()
        return False

    def worked(self) -> float:
        """How many seconds of a processor it has had; since its start, where the system doesn't say that."""
        return worked(self._process.pid, self._begun)

    def pause(self) -> None:
        """Stops it until it goes on, or this process ends."""
        self._is_paused = True
        self._process.send_signal(signal.SIGSTOP)

    def go_on(self) -> None:
        """Has it go on, where it was stopped."""
        if self._is_paused:
            self._process.send_signal(signal.SIGCONT)
            self._is_paused = False

    def stop(self) -> None:
        """Ends it at once. What it said is kept."""
        self._process.kill()

    def messages(self) -> str:
        """What the program said on standard error so far."""
        errors = self._errors.fileno()
        # The program writes where its file was read last, so this reads beside that.
        return os.pread(errors, os.fstat(errors).st_size, 0).decode("utf-8", "replace").strip()

    def _out_of_time(self) -> OutOfTime:
        return OutOfTime(f"{self.program} took longer than it was given")

    def failure(self) -> ProgramFailed:
        """What is raised where the status isn't the one that was wanted."""
        return ProgramFailed(self.program, self.status(), self.messages())


def _begun(words: Sequence[str], given: IO[bytes], errors: IO[bytes]) -> subprocess.Popen[bytes]:
    """A process with these arguments. If it can't be begun, or a clock has run down meanwhile, nothing of it stays."""
    process = None
    try:
        with undisturbed():
            process = guard.start(words, stdin=given, stdout=subprocess.PIPE, stderr=errors, bufsize=0)
            _running.add(process)
    except BaseException:
        errors.close()
        if process is not None:
            _end(process)
        raise
    return process


def _end(process: subprocess.Popen[bytes]) -> None:
    if process.poll() is None:
        process.kill()
        process.wait()
    if process in _running:
        with undisturbed():
            guard.let_go(process.pid)
            _running.discard(process)
    if process.stdout is not None:
        process.stdout.close()


class Ending:
    """A program's last line: how many solutions there were, and whether these are all."""

    def __init__(self, run: Run) -> None:
        """Waits for the end of a run whose output was read. Raises `ProgramFailed` where the status isn't 0."""
        last = last_line(run.messages()) if run.status() == 0 else None
        if last is None:
            raise run.failure()
        self.total, self.complete = last


def last_line(messages: str) -> tuple[int, bool] | None:
    """How many solutions the last line of a program's messages says, and whether these are all; None for another."""
    found = _LAST_LINE.match(messages.removesuffix("\n").rpartition("\n")[2])
    return None if found is None else (read_number(found.group(1)), found.group(2) is None)


def read_number(digits: str) -> int:
    """The number of decimal digits, however many there are."""
    if len(digits) <= _DIGITS:
        return int(digits)
    half = len(digits) // 2
    shift: int = 10**half
    return read_number(digits[:-half]) * shift + read_number(digits[-half:])


def widen(pipe: int) -> None:
    """A pipe of 1 MB lets the program go on while its output is read; where that isn't to be had, it stays as it is."""
    # Commands that run no program don't wait for this.
    import fcntl

    # Python 3.9 has no name for it.
    with suppress(OSError):
        fcntl.fcntl(pipe, getattr(fcntl, "F_SETPIPE_SZ", 1031), 1 << 20)
