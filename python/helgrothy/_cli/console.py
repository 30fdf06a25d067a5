"""What commands read, print and end with: standard streams, closed or not, messages, and how long they may take."""

from __future__ import annotations

import argparse
import codecs
import os
import re
import signal
import sys
import threading
import time
from collections.abc import Callable, Iterable, Iterator, Sequence
from contextlib import contextmanager, nullcontext, suppress
from itertools import islice
from typing import Any, NoReturn

from .._run.programs import end_all
from .._text.shown import bytes_of, shown
from ..errors import HelgrothyError, OutOfTime, reason_of
from .line import LINE

# No legal problem that names each item as short as it can is longer, and more isn't read.
_MOST_TEXT = 1 << 30
_CHUNK = 1 << 20
# No option has so many items that the line of a listing is longer.
_MOST_LINE = 1 << 23
# So many lines are written at once where all of them are quickly made.
_LINES = 1000
# Numbers in the arguments of commands: the programs take these too.
_MOST_NUMBER = (1 << 64) - 1
# Python reads so many digits at once, and so many of a wrong number are shown.
_MOST_DIGITS, _MOST_SHOWN_DIGITS = 4000, 40
# More than anybody waits, and no more than the system's clocks take.
_MOST_SECONDS = 1e9
# Of the time that a command is given, so that what was found by then can be printed.
SHARE = 0.9
# Where time is over an exception says so. Until it was raised so long ago, or the process has worked on for so long, it
# is on its way, which may take seconds on a machine that does other things: a second one would break off what is done
# at the end.
_ON_ITS_WAY, _AT_WORK = 10.0, 0.5
# After a wrong name so many that are near to it, by `difflib`, are shown, or all where none is near and they are few.
_MOST_NEAR, _NEAR, _MOST_SHOWN = 3, 0.65, 20
# The title over the arguments of a kind of problems.
OF_THIS_KIND = "of this kind"
_INPUT, _OUTPUT, _ERROR = "standard input", "standard output", "standard error"


class Parser(argparse.ArgumentParser):
    """A parser whose messages are a line each, with what is near to a wrong name and no byte that steers a terminal.

    Options are written in full: what is short enough for one today may be another one's tomorrow.
    """

    def __init__(self, *words: Any, **more: Any) -> None:
        more.setdefault("allow_abbrev", False)
        super().__init__(*words, **more)

    @contextmanager
    def under(self, title: str) -> Iterator[None]:
        """Has what is added meanwhile stand under a title of its own in what `--help` prints."""
        before = self._positionals, self._optionals
        groups = {group.title: group for group in self._action_groups}
        self._positionals = self._optionals = groups.get(title) or self.add_argument_group(title)
        try:
            yield
        finally:
            self._positionals, self._optionals = before

    def error(self, message: str) -> NoReturn:
        self.exit(2, f"{shown(f'{self.prog}: {message}; see {self.prog} --help')}\n")

    def parse_known_args(self, args: Any = None, namespace: Any = None) -> Any:
        found, rest = super().parse_known_args(args, namespace)
        if rest:
            # The commands of a parser look at their own arguments first.
            self.error(self._for_kind(getattr(found, "problem", ""), rest) or self._surplus(rest[0]))
        return found, rest

    def _for_kind(self, problem: str, rest: Sequence[str]) -> str:
        """What to do where a kind of problems and its arguments stand for a problem, or nothing."""
        from ..make import KINDS

        if problem not in KINDS or os.path.exists(problem):
            return ""
        made = " ".join(["helgrothy make", problem, *rest])
        return f"{problem}: a problem stands here, and this makes one: {made} | {self.prog}"

    def _surplus(self, word: str) -> str:
        """What is wrong with an argument that no place or option takes."""
        if not word.startswith("-"):
            return f"{word}: one argument too many"
        if self._subparsers is not None:
            return f"{word}: no such option; those of a command come after it"
        name = word.partition("=")[0]
        options = [option for action in self._actions for option in action.option_strings if option.startswith("--")]
        return f"{name}: no such option{did_you_mean(name, [one for one in options if one != '--help'])}"

    def _check_value(self, action: argparse.Action, value: Any) -> None:
        if action.choices is not None and value not in action.choices and not hasattr(action, "takes_others"):
            what = str(action.metavar or action.dest).lower()
            raise argparse.ArgumentError(None, f"{value}: no such {what}{did_you_mean(value, action.choices)}")


def did_you_mean(word: str, words: Iterable[str]) -> str:
    """What to show after a wrong name: the right ones that are near to it, or all where none is and they are few."""
    # A command whose names are right doesn't wait for it.
    from difflib import get_close_matches

    known = {one.lstrip("-"): one for one in words}
    given = word.lstrip("-")
    begun = [one for one in known if len(given) > 1 and one.startswith(given)]
    near = dict.fromkeys([*begun, *get_close_matches(given, known, _MOST_NEAR, _NEAR)])
    if near:
        return f" (is it {' or '.join(known[one] for one in list(near)[:_MOST_NEAR])}?)"
    if not 0 < len(known) <= _MOST_SHOWN:
        return ""
    *most, last = known.values()
    return f" (there are {', '.join(most)} and {last})" if most else f" (there is {last})"


def add_problem(parser: argparse.ArgumentParser) -> None:
    """The problem of a command, a file or standard input."""
    parser.add_argument("problem", nargs="?", default="-", metavar="PROBLEM", help="a file (default: standard input)")


def run(command: str, act: Callable[[], int], unread: int = 2) -> int:
    """What a command does, and its status; `unread` is that where nobody reads what it prints any longer.

    Where it can't be done the status is 2, and a line on standard error says why.
    """
    try:
        _open_all()
        if signal.getsignal(signal.SIGINT) is signal.SIG_DFL and _is_main():
            signal.signal(signal.SIGINT, signal.default_int_handler)
        try:
            return act()
        finally:
            with _naming(_OUTPUT):
                sys.stdout.flush()
    except BrokenPipeError as error:
        _drop_output()
        return unread if error.filename == _OUTPUT else 2
    except KeyboardInterrupt:
        _drop_output()
        return 130
    except MemoryError:
        reason = "out of memory"
    except RecursionError:
        reason = "nested too deeply"
    except (HelgrothyError, ValueError, OSError) as error:
        reason = reason_of(error)
    _drop_output()
    try:
        say(f"{command}: {reason}")
    except OSError:
        # Nobody can be shown why.
        _drop(sys.stderr, 2)
    return 2


def end_by_signals() -> None:
    """A command that is ended by a signal leaves as it does at its end, and takes its programs along."""
    for number in (signal.SIGTERM, signal.SIGHUP):
        if signal.getsignal(number) is signal.SIG_DFL:
            signal.signal(number, _end)


def _end(number: int, _: object) -> NoReturn:
    sys.exit(128 + number)


def say(line: str) -> None:
    """Writes a line to standard error. Raises `OSError`."""
    with LINE.hidden(), _naming(_ERROR):
        print(shown(line), file=sys.stderr, flush=True)


def hint(line: str) -> bool:
    """Writes a line to standard error where that is a terminal, and says whether it is. Raises `OSError`."""
    is_terminal = sys.stderr is not None and sys.stderr.isatty()
    if is_terminal:
        say(line)
    return is_terminal


def fail(message: str, status: int = 2) -> int:
    """Says why `helgrothy` can't do what is asked, and gives the status. Raises `OSError`."""
    say(f"helgrothy: {message}")
    return status


def write(texts: Iterable[str]) -> None:
    """Writes texts to standard output as the bytes that they came as, UTF-8 or not; to a terminal only what it prints.

    Raises `OSError`.
    """
    write_bytes(map(bytes_of, texts))


def write_lines(lines: Iterable[str]) -> None:
    """Writes lines, without their ends, as `write` writes texts, many at once. Raises `OSError`."""
    left = iter(lines)
    write(iter(lambda: "".join(f"{line}\n" for line in islice(left, _LINES)), ""))


def write_bytes(pieces: Iterable[bytes]) -> None:
    """Writes to standard output, to a terminal only what it prints. Raises `OSError`."""
    out = sys.stdout.buffer
    is_terminal = sys.stdout.isatty()
    for piece in _printed(pieces) if is_terminal else pieces:
        with LINE.hidden() if is_terminal else nullcontext(), _naming(_OUTPUT):
            out.write(piece)
            if is_terminal:
                out.flush()
    with _naming(_OUTPUT):
        out.flush()


def read(path: str) -> bytes:
    """The bytes of a file, or of standard input where its name is `-`. Raises `OSError` and `ValueError`."""
    if path != "-":
        return read_file(path)
    with _naming(_INPUT):
        return _read(sys.stdin.buffer, _INPUT)


def read_file(path: str) -> bytes:
    """The bytes of a file. Raises `OSError` and `ValueError`."""
    with open(path, "rb") as file:
        return _read(file, path)


def input_lines() -> Iterator[bytes]:
    """The lines of standard input, each with its end. Raises `OSError`, and `ValueError` for one that is too long."""
    number = 0
    while True:
        with _naming(_INPUT):
            line = sys.stdin.buffer.readline(_MOST_LINE)
        number += 1
        if len(line) == _MOST_LINE:
            raise ValueError(f"{_INPUT}: line {number} has more than {_MOST_LINE >> 20} MB")
        if not line:
            return
        yield line


def positive(word: str) -> int:
    """A number of at least 1, for a parser."""
    if not re.match(r"[0-9]+\Z", word) or len(word) > 20 or not 1 <= int(word) <= _MOST_NUMBER:
        raise argparse.ArgumentTypeError(f"{word}: it has to be a number from 1 to {_MOST_NUMBER}")
    return int(word)


def number(word: str) -> int:
    """A number of at least 0, for a parser."""
    if not re.match(r"[0-9]+\Z", word) or len(word) > 20 or int(word) > _MOST_NUMBER:
        raise argparse.ArgumentTypeError(f"{word}: it has to be a number from 0 to {_MOST_NUMBER}")
    return int(word)


def write_long_numbers() -> None:
    """Python writes no number of many digits unless it is asked to."""
    getattr(sys, "set_int_max_str_digits", lambda digits: None)(0)


def natural(word: str) -> int:
    """A number of at least 1 with any digits that Python reads, for a parser."""
    if not re.match(r"[0-9]+\Z", word) or len(word) > _MOST_DIGITS or int(word) < 1:
        raise argparse.ArgumentTypeError(f"{word[:_MOST_SHOWN_DIGITS]}: it has to be a number from 1 on")
    return int(word)


def seconds(word: str) -> float:
    """A time, for a parser."""
    try:
        time = 0.0 if "_" in word else float(word)
    except ValueError:
        time = 0.0
    if not time > 0:
        raise argparse.ArgumentTypeError(f"{word}: it has to be more than 0 seconds")
    return min(time, _MOST_SECONDS)


@contextmanager
def nothing_collected() -> Iterator[None]:
    """Has Python look for no rubbish meanwhile: of a large problem and what is made of it nothing becomes any."""
    import gc  # Only exports need it.

    was_enabled = gc.isenabled()
    gc.disable()
    try:
        yield
    finally:
        if was_enabled:
            gc.enable()


@contextmanager
def limited(most: float | None) -> Iterator[None]:
    """Has what is done take at most so many seconds. Raises `OutOfTime`, in the main thread alone."""
    if most is None or not _is_main():
        yield
        return
    global _clock
    clock = _clock = _Clock(most, sys.unraisablehook)
    before = signal.signal(signal.SIGALRM, clock.end)
    sys.unraisablehook = clock.lose
    try:
        # Should an exception be lost, where Python can't pass it on, the next one comes soon.
        signal.setitimer(signal.ITIMER_REAL, most, 1.0)
        yield
    finally:
        clock.is_open = False
        signal.setitimer(signal.ITIMER_REAL, 0)
        signal.signal(signal.SIGALRM, before)
        sys.unraisablehook = clock.report
        end_all()


def no_longer_limited() -> None:
    """The time is heard no longer: what was found by then is shown."""
    if _clock is not None:
        _clock.is_open = False


class _Clock:
    """What is done when time is over, while it is open; `report` reports exceptions that are lost."""

    def __init__(self, most: float, report: Callable[[Any], Any]) -> None:
        self.is_open = True
        self.report = report
        self._most = most
        # When an exception was raised: by the clock, and by what the process had taken of a processor.
        self._raised: tuple[float, float] | None = None

    def end(self, *_: object) -> None:
        before, now = self._raised, (time.monotonic(), time.process_time())
        is_on_its_way = before is not None and now[0] < before[0] + _ON_ITS_WAY and now[1] < before[1] + _AT_WORK
        if self.is_open and not is_on_its_way:
            self._raised = now
            raise OutOfTime(f"it wasn't done in {self._most:g} seconds")

    def lose(self, lost: Any) -> None:
        """One of these that is lost isn't reported: the next one comes."""
        if lost.exc_type is OutOfTime:
            self._raised = None
        else:
            self.report(lost)


# That of the command that runs.
_clock: _Clock | None = None


def _is_main() -> bool:
    return threading.current_thread() is threading.main_thread()


@contextmanager
def _naming(stream: str) -> Iterator[None]:
    """A failure of a stream says which one it is."""
    try:
        yield
    except OSError as error:
        if not error.filename and error.errno is not None:
            error.filename = stream
        raise


def _open_all() -> None:
    """No file that is opened gets the number of a standard stream that is closed: that one fails at its first use."""
    for number, (name, mode, other) in enumerate(
        (("stdin", "r", os.O_WRONLY), ("stdout", "w", os.O_RDONLY), ("stderr", "w", os.O_RDONLY))
    ):
        try:
            os.fstat(number)
        except OSError:
            # It gets the least number that is free.
            os.open(os.devnull, other)
        if getattr(sys, name) is None:
            setattr(sys, name, open(number, mode, encoding="utf-8", errors="backslashreplace", closefd=False))


def _drop_output() -> None:
    """What is still held back for standard output goes nowhere."""
    try:
        with suppress(ValueError):
            sys.stdout.flush()
    except OSError:
        _drop(sys.stdout, 1)


def _drop(stream: Any, number: int) -> None:
    with suppress(OSError, ValueError):
        if stream.fileno() == number:
            nowhere = os.open(os.devnull, os.O_WRONLY)
            os.dup2(nowhere, number)
            os.close(nowhere)


def _read(file: Any, name: str) -> bytes:
    pieces: list[bytes] = []
    left = _MOST_TEXT
    while True:
        piece = file.read(min(_CHUNK, left + 1))
        if not piece:
            return b"".join(pieces)
        left -= len(piece)
        if left < 0:
            raise ValueError(f"{name} has more than {_MOST_TEXT >> 20} MB")
        pieces.append(piece)


def _printed(pieces: Iterable[bytes]) -> Iterator[bytes]:
    """Lines as they may go to a terminal."""
    decoder = codecs.getincrementaldecoder("utf-8")("surrogateescape")
    for text in map(decoder.decode, pieces):
        yield bytes_of("".join(part if part in "\t\n" else shown(part) for part in re.split("([\t\n])", text)))
    yield bytes_of(shown(decoder.decode(b"", True)))
