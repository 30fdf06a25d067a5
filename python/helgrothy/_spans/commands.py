"""The command `helgrothy search`.

Status 0 says that all is done, 2 that the command could not be done, 3 that a read or write failed, 6 that a search
isn't done and goes on with the same command.
"""

from __future__ import annotations

import argparse
import signal
import subprocess
import sys
import time
from collections.abc import Sequence
from typing import Any

from .._cli import console
from .._run.programs import processors
from .._text.clock import duration, percent
from ..errors import OutOfTime, ProgramFailed, SearchFault
from . import record as records
from .cuts import rows
from .folder import Folder, Look
from .held import is_at_work
from .join import PROGRAM as JOIN
from .join import Ending, Join
from .join import count as joined
from .loop import Job, Kept, Loop
from .rows import WHOLE, Span, share_of, word_of
from .show import Shown
from .span import Task, run
from .text import ignored, kind_of
from .workers import MOST_JOBS, Dask, Own, Workers

NOT_DONE = 6
_PROGRAMS = ("dlx1", "dlx2", "dlx3")
_SEARCH = "helgrothy search"
# The fault of a problem.
_BAD_PROBLEM = 2


# What stands in the place of a search, and the other words that it takes.
_INSTEAD = {"status": (), "result": ("list",), "rows": ("problem", "program")}
_WORDS = {
    "problem": "PROBLEM",
    "list": "--list",
    "jobs": "--jobs",
    "dask": "--dask",
    "most": "--seconds",
    "folder": "--folder",
    "program": "--for",
}


# ---- search


def add(commands: Any) -> None:
    """The command `search`, for the parser of `helgrothy`."""
    parser: argparse.ArgumentParser = commands.add_parser(
        "search",
        help="count or list all solutions, by all processors or many machines",
        description="Counts all solutions of a problem, or lists them as the program for it does, by all processors. "
        "What is done is kept in a folder: stopped or killed, the same command goes on.",
        epilog="examples:\n  helgrothy search queens.dlx\n  helgrothy search queens.dlx --list > all.txt\n"
        "  helgrothy search queens.dlx --dask tcp://first:8786 --folder queens.found\n"
        "  helgrothy search --status queens.found",
        formatter_class=argparse.RawDescriptionHelpFormatter,
    )
    parser.add_argument(
        "problem", nargs="?", metavar="PROBLEM", help="a file, or - for standard input, which needs --folder"
    )
    parser.add_argument("--list", action="store_true", help="list the solutions")
    workers = parser.add_mutually_exclusive_group()
    workers.add_argument("--jobs", type=_jobs, metavar="N", help="so many processors (default: all)")
    workers.add_argument("--dask", metavar="ADDRESS", help="the workers of Dask, by its address or file")
    parser.add_argument(
        "--seconds", dest="most", type=console.seconds, metavar="S", help="stop after S seconds, with status 6"
    )
    parser.add_argument(
        "--folder", metavar="FOLDER", help="keep what is done here (default: PROBLEM.search, removed at the end)"
    )
    parser.add_argument(
        "--for", dest="program", choices=_PROGRAMS, help="the program (default: the first that takes such a text)"
    )
    _add_instead(parser)
    parser.set_defaults(command=lambda arguments: _act(arguments, parser))


def _add_instead(parser: argparse.ArgumentParser) -> None:
    instead = parser.add_argument_group("instead of a search").add_mutually_exclusive_group()
    instead.add_argument(
        "--status",
        metavar="FOLDER",
        help="report how far the search of this folder is, and about how long the rest takes",
    )
    instead.add_argument(
        "--result",
        metavar="FOLDER",
        help="print what the search of this folder has found, its number of solutions or, with --list, the solutions; "
        "nothing, with status 6, while something is left",
    )
    instead.add_argument(
        "--rows",
        type=console.positive,
        metavar="N",
        help="print up to N rows at which a search of PROBLEM may be cut, for queues that run programs and nothing "
        "else: dlx-span searches between two of them, and dlx-join puts the texts together",
    )


def _act(arguments: argparse.Namespace, parser: argparse.ArgumentParser) -> int:
    """Does a search, or what is asked for instead of one."""
    what = next((name for name in _INSTEAD if getattr(arguments, name) is not None), None)
    if arguments.problem is None and (what is None or "problem" in _INSTEAD[what]):
        parser.error("the following arguments are required: PROBLEM")
    if what is None:
        return _search(arguments)
    for name, word in _WORDS.items():
        if name not in _INSTEAD[what] and getattr(arguments, name):
            parser.error(f"--{what}: without {word}")
    if what == "status":
        return _status(arguments.status)
    return _result(arguments.result, arguments.list) if what == "result" else _rows(arguments)


def _search(arguments: argparse.Namespace) -> int:
    if arguments.problem == "-" and arguments.folder is None:
        raise SearchFault("a problem from standard input needs --folder, where what is done is kept")
    console.end_by_signals()
    begun = time.monotonic()
    try:
        with console.limited(arguments.most):
            job = _read_job(arguments)
    except ProgramFailed as error:
        return _failed(error)
    except OutOfTime:
        console.say(f"helgrothy: not done in {arguments.most:g} seconds: {_name(arguments)} wasn't read by then")
        return NOT_DONE
    is_beside = arguments.folder is None
    path = f"{arguments.problem}.search" if is_beside else arguments.folder
    with Folder(path, job, is_own=is_beside) as folder:
        # What is damaged is reported before anything is printed.
        folder.check()
        for line in ignored(job.problem):
            console.say(f"Option ignored (no primary items): line {line}")
        status = _Searching(folder, job, arguments, begun).run()
        if status == 0 and is_beside:
            folder.remove()
    return status


def _read_job(arguments: argparse.Namespace) -> Job:
    """What is to be searched. Raises `ProgramFailed` for a text with a fault, before there is a folder."""
    problem = console.read(arguments.problem)
    kind = _kind(arguments, problem)
    # The first step shows a fault, and the problem's digest.
    first = run(Task(kind, listed=False, problem=problem, start="-", until="-", steps=1, most=0))
    digest = records.of_text(first.text, WHOLE, listed=False).digest
    return Job(problem, kind, arguments.list, digest, _name(arguments))


class _Searching:
    """A search in a folder, from where it is to its end."""

    def __init__(self, folder: Folder, job: Job, arguments: argparse.Namespace, begun: float) -> None:
        self._folder = folder
        self._job = job
        self._arguments = arguments
        self._deadline = None if arguments.most is None else begun + arguments.most
        self._shown = Shown(job.listed)
        self._join: Join | None = None
        self._parts = folder.parts
        self._loop: Loop | None = None

    def run(self) -> int:
        todo = self._folder.todo()
        if todo and self._folder.entries:
            console.say(f"goes on at {self._percent()} ({self._folder.solutions:,} solutions)")
        try:
            if not self._job.listed:
                return self._search(todo) or self._end(joined(self._folder.texts()))
            out = subprocess.PIPE if sys.stdout.isatty() else None
            with Join(True, out, self._wake) as self._join:
                return self._search(todo) or self._end_listing()
        except ProgramFailed as error:
            self._shown.clear()
            return _failed(error)
        except (KeyboardInterrupt, SystemExit):
            self._report_stop("stopped")
            raise
        except (SearchFault, OSError):
            self._shown.clear()
            raise

    def _wake(self) -> None:
        if self._loop is not None:
            self._loop.wake()

    def _search(self, todo: Sequence[Span]) -> int:
        """Searches what is left; a status if it isn't all done."""
        self._give()
        if not todo:
            return 0
        with self._workers() as workers:
            own = self._keep, self._report
            self._loop = Loop(self._job, workers.submit, workers.count, *own, workers.ahead, workers.longest)
            self._loop.done_before(self._folder.parts, self._folder.solutions)
            try:
                is_done = self._loop.search(list(todo), self._seconds())
            finally:
                # What is done is kept, whatever came.
                self._parts = self._loop.parts
                self._folder.flush()
        self._give()
        if not is_done:
            self._report_stop(f"not done in {self._arguments.most:g} seconds")
            return NOT_DONE
        return 0

    def _seconds(self) -> float | None:
        """How long the search may take yet."""
        return None if self._deadline is None else max(self._deadline - time.monotonic(), 0.0)

    def _workers(self) -> Workers:
        if self._arguments.dask is not None:
            return Dask(self._arguments.dask)
        return Own(self._arguments.jobs or processors())

    def _keep(self, kept: Kept) -> None:
        self._folder.keep(kept)
        self._give()

    def _report(self, progress: Any) -> None:
        if self._join is not None:
            self._join.check()
        self._shown.show(progress)

    def _give(self) -> None:
        """Gives the listing what its beginning has."""
        if self._join is not None:
            for entry in self._folder.chain(self._join.at):
                self._join.give(lambda entry=entry: self._folder.text(entry), entry.span.until)  # type: ignore[misc]

    def _end_listing(self) -> int:
        assert self._join is not None
        return self._end(self._join.end())

    def _end(self, ending: Ending) -> int:
        self._shown.clear()
        return _printed(ending)

    def _report_stop(self, why: str) -> None:
        self._shown.clear()
        console.say(f"helgrothy: {why}: {self._percent()}; the same command goes on ({self._folder.path})")

    def _percent(self) -> str:
        """How much is done of a search that isn't done."""
        return percent(share_of(self._parts))


def _failed(error: ProgramFailed) -> int:
    """Prints what a program failed with, as the program itself says it; returns its status."""
    if error.status > 1 and error.message:
        console.say(error.message)
        return error.status
    if error.status == -signal.SIGPIPE:
        # Nobody reads the listing.
        return 128 + signal.SIGPIPE
    raise error


def _printed(ending: Ending) -> int:
    """Prints what dlx-join said, and gives its status. Raises `ProgramFailed` where it was killed."""
    if ending.status < 0:
        raise ProgramFailed(JOIN, ending.status, ending.messages.strip())
    for line in ending.messages.splitlines():
        console.say(line)
    return ending.status


# ---- what stands in the place of a search


def _status(path: str) -> int:
    """Reports what of a folder's search is done, and about how long the rest takes."""
    folder = Look(path)
    share = share_of(folder.parts, is_done=not folder.todo())
    lines = [f"{percent(share)} done: {folder.solutions:,} solutions, {duration(folder.seconds)} of a processor"]
    if 0 < share < 1:
        lines.append(f"left: about {duration(folder.seconds * (1 - share) / share)} of a processor")
    if is_at_work(path):
        lines.append("a command is at work")
    console.write(f"{line}\n" for line in lines)
    return 0


def _result(path: str, is_listed: bool) -> int:
    """Prints the number of solutions of a folder's search, or lists them; nothing where something is left."""
    with Folder(path, is_read=True) as folder:
        todo = folder.todo()
        if todo:
            start, until = word_of(todo[0].start), word_of(todo[0].until)
            console.say(f"helgrothy: {folder.path}: not done: from {start} until {until} is left")
            return NOT_DONE
        if is_listed and not folder.about.listed:
            raise SearchFault(f"{folder.path}: it is of a search that counts solutions; search with --list")
        # A listing is printed where all files are whole.
        folder.check()
        lines = ignored(folder.problem())
        for line in lines:
            console.say(f"Option ignored (no primary items): line {line}")
        out = subprocess.DEVNULL if not is_listed else subprocess.PIPE if sys.stdout.isatty() else None
        with Join(folder.about.listed, out) as join:
            for text in folder.texts():
                join.give(text, None)
            try:
                return _printed(join.end())
            except ProgramFailed as error:
                return _failed(error)


def _rows(arguments: argparse.Namespace) -> int:
    """Prints rows at which a search may be cut, rising; it takes about a second."""
    problem = console.read(arguments.problem)
    try:
        found = rows(problem, _kind(arguments, problem), arguments.rows)
    except ProgramFailed as error:
        return _failed(error)
    console.write(f"{word_of(row)}\n" for row in found)
    return 0


# ---- what commands have in common


def _jobs(word: str) -> int:
    """A number of workers, for a parser."""
    if not word.isascii() or not word.isdigit() or len(word) > 20 or not 1 <= int(word) <= MOST_JOBS:
        raise argparse.ArgumentTypeError(f"{word}: it has to be a number from 1 to {MOST_JOBS}")
    return int(word)


def _name(arguments: argparse.Namespace) -> str:
    """What messages call the problem."""
    return "standard input" if arguments.problem == "-" else str(arguments.problem)


def _kind(arguments: argparse.Namespace, problem: bytes) -> int:
    return int(arguments.program[-1]) if arguments.program else kind_of(problem)
