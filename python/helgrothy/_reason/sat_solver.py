"""Other engines where the path has one: cadical, which is given clauses, and clasp, which is given sums.

What an engine says is a claim. A solution of it is one where dlxcheck judges it to be one, and that there is none stays
what the engine reports. It runs with limits of memory and output, in a session of its own that is killed as a whole.

Its output is a file, so that nothing waits for it. That there is no solution needs its last line and its status. One
that is asked what costs least is heard: the lines that it has written by then are read some times a second. It may
write only so much without a better solution, and is heard no longer than it runs, whatever it has begun.

Clasp gets what has no colours, as sums, and cadical the rest, as clauses: that form is the shorter one. An item that
many options hold is one sum, but a chain of clauses; if there are bounds, sums are shorter too.
"""

from __future__ import annotations

import os
import select
import shutil
import signal
import subprocess
import time
from collections.abc import Hashable, Iterable, Iterator
from contextlib import suppress
from typing import IO, Any, NamedTuple

from .. import answers, export
from .._run import guard, programs
from .._text.shown import bytes_of, text_of
from ..errors import AnswerFault, HelgrothyError, ListingFault, OutOfTime, ProblemFault, ProgramFailed
from ..problem import Problem

# Engines, and the arguments by which they print an answer and little else.
SOLVERS = {"cadical": ["-q"], "clasp": ["-V0"]}
# The status of an engine that reports that there is no solution.
NONE = 20
# Of the engine: its address space, and what it may print beside twice as much as it was given.
_MEMORY = 4 << 30
_OUTPUT = 1 << 20
_LIMITED = 'ulimit -c 0; ulimit -v "$1"; ulimit -f "$2"; shift 2; exec "$@"'
_BLOCK = 512
# Where no time is given it may take so long, by the clock.
MOST_SECONDS = 600.0
# One that is heard may write so many times as much as an answer may take, without a better one, and so much of it is
# read at a time. A line of it has a word for each option, and others are short.
_MOST_WASTE, _MOST_LINE, _MOST_WORD, _MOST_HEARD = 8, 1 << 16, 16, 1 << 22
# Of what it says on standard error so many bytes are shown.
_MOST_SHOWN = 200
_CHUNK = 1 << 18
# To write the clauses of 600,000 uses took 8 seconds.
_WRITING_SECONDS = 1.3e-5
# An engine that is waited for is looked at so often.
_LOOK_SECONDS = 0.01


class NoAnswer(HelgrothyError):
    """An engine gave no answer, or one that isn't right."""

    @classmethod
    def in_time(cls, engine: str) -> NoAnswer:
        """None until its time was over."""
        return cls(f"{engine} gave no answer in its time")


class Engine(NamedTuple):
    """An engine: its name, and where it is."""

    name: str
    path: str


def find(problem: Problem[Any]) -> Engine | None:
    """The engine for a problem: the first of `found`, if the path has one."""
    return next(iter(found(problem)), None)


def found(problem: Problem[Any]) -> list[Engine]:
    """The engines that the path has, in their order for a problem.

    There is none where there is no dlxcheck that could judge what they say.
    """
    if not programs.has("dlxcheck"):
        return []
    paths = [(name, path_of(name)) for name in in_order(problem)]
    return [Engine(name, path) for name, path in paths if path is not None]


def in_order(problem: Problem[Any]) -> list[str]:
    """The engines, with that one first which is for the problem: clasp for one of sums alone, cadical for colours."""
    # Sums take several times as long a text as clauses as they do for clasp; colours take a shorter one.
    return sorted(SOLVERS, reverse=problem.kind != 2)


def missing(*names: str) -> str:
    """That engines which the path hasn't may find a solution."""
    who = "which isn't on the path" if len(names) == 1 else "which aren't on the path"
    return f"no solution yet; {' or '.join(names)}, {who}, may find one"


def path_of(name: str) -> str | None:
    """Where the path has a solver, if it does."""
    # A folder without a full name would be whatever lies where the command is called.
    folders = os.pathsep.join(filter(os.path.isabs, os.environ.get("PATH", os.defpath).split(os.pathsep)))
    return shutil.which(name, path=folders)


def writing_seconds(problem: Problem[Any]) -> float:
    """About how long it takes to write a problem's clauses."""
    return _WRITING_SECONDS * sum(1 for option in problem.options for _ in problem._pairs(option))


def judge(engine: str, problem: Problem[Any], options: Iterable[Any]) -> None:
    """Writes what an engine calls a solution as a listing. Raises `NoAnswer` where dlxcheck judges it to be none."""
    try:
        is_solution = problem.check([options]) == [True]
    except (ListingFault, ProblemFault, ProgramFailed):
        is_solution = False
    if not is_solution:
        raise NoAnswer(f"what {engine} calls a solution is none, as dlxcheck judges it")


class Work:
    """An engine at work on a problem. As a context manager it leaves no process behind, however it is left.

    name: the engine's. begun: when it was begun, by the clock that only goes on.
    """

    name: str
    begun: float
    _problem: Problem[Any]
    _process: subprocess.Popen[bytes]
    _written: IO[bytes]

    def _begin(
        self,
        command: list[str],
        text: Iterable[bytes],
        is_heard: bool = False,
        folder: str | None = None,
        most: int | None = None,
    ) -> None:
        """What it says goes to a file, or what it says on standard error where it is heard. It begins in a folder.

        most: how many bytes it may write to a file.

        Where it can't be begun, or a clock has run down meanwhile, nothing of it is left.
        """
        # A command loads this module before it knows whether it asks an engine.
        import tempfile

        with tempfile.TemporaryFile() as given:
            given.writelines(text)
            self.begun = time.monotonic()
            output = _OUTPUT + 2 * given.tell() if most is None else most
            given.seek(0)
            limited = ["/bin/sh", "-c", _LIMITED, "sh", str(_MEMORY >> 10), str(output // _BLOCK), *command]
            self._written = tempfile.TemporaryFile()
            out, error = (subprocess.PIPE, self._written) if is_heard else (self._written, subprocess.DEVNULL)
            try:
                with programs.undisturbed():
                    self._process = guard.start(
                        limited, stdin=given, stdout=out, stderr=error, bufsize=0, start_new_session=True, cwd=folder
                    )
                    programs._running.add(self)
            except BaseException:
                if self in programs._running:
                    self.__exit__()
                self._written.close()
                raise

    def __exit__(self, *_: object) -> None:
        self.kill()
        self.wait()
        programs._running.discard(self)
        self._written.close()
        if self._process.stdout is not None:
            self._process.stdout.close()

    def kill(self) -> None:
        """Kills the engine and what it has begun."""
        # Once it was waited for, its number may be another one's.
        if self._process.returncode is None:
            with suppress(OSError):
                os.killpg(self._process.pid, signal.SIGKILL)

    def wait(self) -> object:
        """Waits for the engine's end."""
        status = self._process.wait()
        guard.let_go(-self._process.pid)
        return status

    def worked(self) -> float:
        """How many seconds of a processor it has had."""
        return programs.worked(self._process.pid, self.begun)

    def has_ended(self) -> bool:
        """Whether the engine has ended by itself."""
        return self._ended() is not None

    def _ended(self) -> Any:
        """How the engine ended, if it has. Its number stays its own until it is waited for."""
        return os.waitid(os.P_PID, self._process.pid, os.WEXITED | os.WNOHANG | os.WNOWAIT)


class Asked(Work):
    """An engine that is asked for a solution."""

    def __init__(self, engine: Engine, problem: Problem[Any], text: Iterable[bytes]) -> None:
        """text: the problem as `export` writes it for the engine, perhaps with more rules."""
        self.name = engine.name
        self._problem = problem
        self._begin([engine.path, *SOLVERS[engine.name]], text)

    def __enter__(self) -> Asked:
        return self

    def wait_for(self, seconds: float) -> None:
        """Waits until the engine has ended. Raises `OutOfTime`."""
        deadline = time.monotonic() + seconds
        while not self.has_ended():
            if time.monotonic() > deadline:
                raise OutOfTime(f"{self.name} took longer than it was given")
            time.sleep(_LOOK_SECONDS)

    def numbers(self) -> list[int] | None:
        """The options that an engine which has ended takes, or None where it reports that there is no solution.

        Raises `NoAnswer`.
        """
        ended = self._ended()
        # Nothing is written any more.
        self.kill()
        self._written.seek(0)
        try:
            first = next(answers.solutions(self.name, self._problem, self._written), None)
        except AnswerFault as fault:
            raise NoAnswer(f"{self.name} gave no answer ({fault})") from None
        if first is not None:
            return first.numbers
        if ended is None or ended.si_code != os.CLD_EXITED or ended.si_status != NONE:
            raise NoAnswer(f"{self.name} gave no answer (it didn't end as it does where there is no solution)")
        return None


class Heard(Work):
    """An engine that is heard while it works."""

    def __init__(
        self, name: str, command: list[str], problem: Problem[Any], text: Iterable[bytes], folder: str
    ) -> None:
        """command: the engine and its arguments. text: as `Asked` takes it. folder: the one that it begins in."""
        self.name = name
        self._problem = problem
        self._most_line = _MOST_LINE + _MOST_WORD * len(problem.options)
        self._rest = b""
        # Whether it has written all that it does.
        self.is_over = False
        self.found_better()
        self._begin(command, text, is_heard=True, folder=folder)
        assert self._process.stdout is not None
        programs.widen(self._process.stdout.fileno())

    def __enter__(self) -> Heard:
        return self

    def found_better(self) -> None:
        """An answer was better than all before, so that it may write as much again."""
        self._left = _MOST_WASTE * self._most_line

    def lines(self) -> Iterator[bytes]:
        """The lines that have come by now, without their ends. Raises `NoAnswer`."""
        for chunk in self._chunks():
            *whole, self._rest = (self._rest + chunk).split(b"\n")
            for line in whole:
                self._left -= len(line) + 1
                if self._left < 0:
                    raise NoAnswer(f"{self.name} writes on and on, and no better answer")
                yield line
            if len(self._rest) > self._most_line:
                raise NoAnswer(f"{self.name} gave no answer (a line of it has no end)")

    def _chunks(self) -> Iterator[bytes]:
        """What it has written by now. What it has begun may hold its output open for longer than it runs."""
        out = self._process.stdout
        assert out is not None
        heard = 0
        while not self.is_over and heard < _MOST_HEARD:
            has_ended = self.has_ended()
            if has_ended:
                self.kill()
            if not select.select([out], [], [], 0.0)[0]:
                self.is_over = has_ended
                return
            chunk = os.read(out.fileno(), _CHUNK)
            heard += len(chunk)
            self.is_over = not chunk
            yield chunk

    def messages(self) -> str:
        """What it said on standard error as one line, as far as that is shown."""
        self._written.seek(0)
        return " ".join(text_of(self._written.read(_MOST_SHOWN)).split())


def text(engine: Engine, problem: Problem[Any]) -> Iterator[bytes]:
    """The problem as an engine takes it."""
    lines = export.opb(problem) if engine.name == "clasp" else export.cnf(problem)
    return (bytes_of(f"{line}\n") for line in lines)


class Solver:
    """An engine for a problem that is written once: which primary items are to be held is said with each question."""

    def __init__(self, problem: Problem[Any], engine: Engine) -> None:
        self.name = engine.name
        self._engine = engine
        self._problem = problem
        options = len(problem.options)
        self._let_off: dict[Hashable, int] = {item: options + k for k, item in enumerate(problem.items, 1)}
        given = list(self._let_off.values())
        if engine.name == "clasp":
            self._last, lines = export.sums(problem, given)
            self._count = len(lines)
            self._head = "* #variable= {} #constraint= {}\n"
            self._held, self._off = "-1 x{} >= 0 ;\n", "+1 x{} >= 1 ;\n"
        else:
            found = export.clauses(problem, given)
            self._last, self._count, lines = found.last, found.count, found.lines
            self._head = "p cnf {} {}\n"
            self._held, self._off = "-{} 0\n", "{} 0\n"
        self._text = "".join(lines).encode()

    def numbers(self, kept: set[Hashable], seconds: float) -> list[int] | None:
        """Options that hold these items as their bounds say, the others being let off; None where the engine reports
        that none do. Raises `NoAnswer` and `OutOfTime`.
        """
        rules = [
            (self._held if item in kept else self._off).format(variable) for item, variable in self._let_off.items()
        ]
        head = self._head.format(self._last, self._count + len(rules))
        text = (head.encode(), self._text, "".join(rules).encode())
        with Asked(self._engine, self._problem, text) as asked:
            asked.wait_for(seconds)
            return asked.numbers()
