"""What can go wrong, as exceptions. All of them are `HelgrothyError`."""

from __future__ import annotations

import os

from ._text.shown import shown


class HelgrothyError(Exception):
    """The parent of every exception that this package raises of its own."""


class Fault(HelgrothyError, ValueError):
    """A fault of a text: its line, counted from 1, the token that is wrong, the reason, and perhaps a hint."""

    line: int
    token: str
    reason: str
    hint: str

    def __init__(self, line: int, token: str, reason: str, hint: str = "") -> None:
        super().__init__(line, token, reason, hint)
        self.line = line
        self.token = token
        self.reason = reason
        self.hint = hint

    def __str__(self) -> str:
        hint = f" ({shown(self.hint)})" if self.hint else ""
        return ": ".join([*self._where(), self.reason]) + hint

    def _where(self) -> list[str]:
        """The place and the token, as the message begins."""
        return [f"line {self.line}", shown(self.token)] if self.token else [f"line {self.line}"]


class ProblemFault(Fault):
    """A fault of a problem. Its reason is the text that the programs have for it, as in docs/INPUT.md.

    line: that of the text the problem was read from; 0 for a problem that was made in Python.
    option: there the option that is at fault, by the number that `add_option` gives it; None where an item is, whose
        text is the token, or where the problem as a whole is, without a token.
    """

    option: int | None

    def __init__(self, line: int, token: str, reason: str, hint: str = "", option: int | None = None) -> None:
        super().__init__(line, token, reason, hint)
        self.args += (option,)
        self.option = option

    def _where(self) -> list[str]:
        if self.line:
            return super()._where()
        token = [shown(self.token)] if self.token else []
        if self.option is not None:
            return [f"option {self.option}", *token]
        return [f"item {one}" for one in token]


class ListingFault(Fault):
    """A fault of a listing: a bad line, or an unknown option."""


class AnswerFault(Fault):
    """A fault of what another solver printed."""


class TableFault(Fault):
    """A fault of a picture or a table that a problem is to be made from."""


class ProgramNotFound(HelgrothyError, LookupError):
    """One of the programs is in none of the places that are searched for it."""


class ProgramFailed(HelgrothyError, RuntimeError):
    """A program ended otherwise than it should: its name, its status, and what it said on standard error."""

    program: str
    status: int
    message: str

    def __init__(self, program: str, status: int, message: str) -> None:
        super().__init__(program, status, message)
        self.program = program
        self.status = status
        self.message = message

    def __str__(self) -> str:
        ended = f"was ended by signal {-self.status}" if self.status < 0 else f"ended with status {self.status}"
        return f"{self.program} {ended}: {self.message or 'no message'}"


class UnknownChoice(HelgrothyError, KeyError):
    """A line that a program printed says no option of the problem."""

    line: bytes

    def __init__(self, line: bytes) -> None:
        super().__init__(line)
        self.line = line

    def __str__(self) -> str:
        return f"a program printed what is no option of the problem: {self.line.decode('utf-8', 'backslashreplace')}"


class OutOfTime(HelgrothyError, TimeoutError):
    """A run took longer than it was given. found: how many solutions it had found by then, also those left out. beside:
    the engine that looked for one beside it, if any did."""

    found: int = 0
    beside: str = ""


class NoPicture(HelgrothyError, LookupError):
    """There is no drawing for the problem, or nothing in it to draw."""


class SearchFault(HelgrothyError, ValueError):
    """A folder of a search, a row, or what a worker gave isn't as it should be."""


def reason_of(error: Exception) -> str:
    """What an error says, and of which file."""
    if isinstance(error, OSError) and error.strerror:
        return f"{os.fsdecode(error.filename)}: {error.strerror}" if error.filename else error.strerror
    return str(error)
