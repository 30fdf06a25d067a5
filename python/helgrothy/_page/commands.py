"""The command `helgrothy page`: a local page where a problem is typed and its solutions come as they are found."""

from __future__ import annotations

import argparse
import errno
from typing import TYPE_CHECKING, Any

from .._cli.console import end_by_signals, say, write
from .._run.programs import find
from ..errors import HelgrothyError

if TYPE_CHECKING:
    from .server import Server

_MOST_PORT = 65535


def add(commands: Any) -> None:
    """The command, for the parser of `helgrothy`."""
    parser = commands.add_parser(
        "page",
        help="a local page to type a problem in",
        description="Serves a page on this machine alone, and prints its address, which has a word that nobody "
        "guesses. A problem or a kind is typed there; faults are shown where they are, and solutions as they are "
        "found. ^C ends it, with all that it runs.",
    )
    parser.add_argument("--port", type=_port, default=0, metavar="N", help="the port (default: one that is free)")
    parser.set_defaults(command=_page)


def _port(word: str) -> int:
    if not (word.isascii() and word.isdigit() and len(word) <= 5 and 1 <= int(word) <= _MOST_PORT):
        raise argparse.ArgumentTypeError(f"{word}: it has to be a number from 1 to {_MOST_PORT}")
    return int(word)


def _page(arguments: argparse.Namespace) -> int:
    find("dlx1")
    end_by_signals()
    server = _server(arguments.port)
    try:
        write([f"{server.address}\n"])
        say("The page is for whoever has this address. ^C ends it.")
        server.serve_forever(poll_interval=0.2)
    finally:
        server.close()
    return 0


def _server(port: int) -> Server:
    # Other commands need no server.
    import json

    from .folders import sweep
    from .server import Server
    from .start import start

    sweep()
    try:
        return Server(port, json.dumps(start()))
    except OSError as error:
        if port and error.errno in (errno.EADDRINUSE, errno.EACCES):
            reason = "it is in use" if error.errno == errno.EADDRINUSE else "this user may not use it"
            message = f"port {port}: {reason}; name another one by --port, or none for one that is free"
            raise HelgrothyError(message) from None
        raise
