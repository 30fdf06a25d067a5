"""The server of the local page: one document, and answers for its script, to nobody who doesn't know its word.

It listens on 127.0.0.1 alone. Its address has a word that nobody guesses; another site's page, which may send requests
to a local address, doesn't know it, and is refused by its name (`Host`) and its origin besides. Nothing is read from
the address but that word and the name of a request, so no file is served.

`http.server` reads the requests, by a thread for each connection; `waiting` sees to it that these are few.
"""

from __future__ import annotations

import hmac
import re
import secrets
import socket
import sys
import threading
import time
from collections.abc import Callable
from contextlib import suppress
from http.client import LineTooLong
from http.server import BaseHTTPRequestHandler, ThreadingHTTPServer
from socketserver import TCPServer
from typing import Any, BinaryIO, cast

from .._text.shown import shown
from ..errors import reason_of
from .answering import Answer, pass_on
from .document import document, policy
from .heads import head, message
from .waiting import BUSY, Waiting

HOST = "127.0.0.1"
_BODIES = ["ask.html", "viewer.html"]
_SCRIPTS = ["viewer.js", "typed.js", "sheet.js", "kinds.js", "ask.js"]
_REQUESTS = ("answer",)
# Connections that the system keeps until they are let in.
_BACKLOG = 128
# Bytes of a head, in which a browser has what it keeps for other servers of this machine too, and of a body.
_MOST_OF_HEAD, _MOST_BYTES = 1 << 16, 1 << 20
# Requests at once of those who know the word, and processes that answer them.
_MOST_AT_ONCE, _MOST_PROCESSES = 32, 6
# Seconds for a piece of an answer to be taken.
_PATIENCE = 20.0
_CHUNK = 1 << 16
# Seconds until the system may give a file or a thread again.
_PAUSE = 0.05
_LINE = re.compile(rb"[!-~]+ ([!-~]+) HTTP/1\.[01]\r?\n\Z")
_LENGTH = re.compile(r"[0-9]{1,9}\Z")
_NO_END = b'{"error":"it took more time or memory than it may"}\n'


class Server(ThreadingHTTPServer):
    """A server of the page, at a port that is free (0) or a given one. `close` ends all that it started.

    Raises `OSError`.
    """

    daemon_threads = True
    block_on_close = False
    request_queue_size = _BACKLOG

    def __init__(self, port: int, data: str) -> None:
        self.word = secrets.token_urlsafe(32)
        page = document(_BODIES, "Helgrothy", _SCRIPTS, [data], connects=True).encode()
        rules = f"{policy(_SCRIPTS, connects=True)}; frame-ancestors 'none'"
        self.page = head(200, "text/html", rules, len(page)) + page
        self.waiting = Waiting()
        self._answers: set[Answer] = set()
        self._lock = threading.Lock()
        self._is_closed = False
        self._requests = threading.BoundedSemaphore(_MOST_AT_ONCE)
        self._processes = threading.BoundedSemaphore(_MOST_PROCESSES)
        super().__init__((HOST, port), _Request)
        self.port = int(self.server_address[1])

    @property
    def address(self) -> str:
        return f"http://{HOST}:{self.port}/{self.word}/"

    def close(self) -> None:
        """Ends the processes that answer, with all that they run."""
        with self._lock:
            self._is_closed = True
            answers = list(self._answers)
        for answer in answers:
            answer.close()
        self.waiting.close()
        self.server_close()

    # ---- connections, by the thread that serves

    def server_bind(self) -> None:
        # That of `HTTPServer` looks for the machine's name as well, which may take long.
        TCPServer.server_bind(self)

    def get_request(self) -> tuple[socket.socket, Any]:
        try:
            return super().get_request()
        except OSError:
            # There are too many open files: one is closed in a moment.
            self.waiting.dismiss_first()
            time.sleep(_PAUSE)
            raise

    def process_request(self, request: Any, client_address: Any) -> None:
        self.waiting.come(request)
        try:
            super().process_request(request, client_address)
        except RuntimeError:
            # The system gives no more threads. What is asked mostly comes in a moment, and unread it would take the
            # answer back.
            time.sleep(_PAUSE)
            with suppress(OSError):
                request.setblocking(False)
                request.recv(_CHUNK)
            with suppress(OSError):
                request.send(BUSY)
            self.shutdown_request(request)

    def service_actions(self) -> None:
        self.waiting.dismiss_late()

    # ---- the end of a connection, by its own thread

    def shutdown_request(self, request: Any) -> None:
        self.waiting.go(request)
        super().shutdown_request(request)

    def handle_error(self, request: Any, client_address: Any) -> None:
        # Whoever asked may be gone at any time.
        if not isinstance(sys.exc_info()[1], OSError):
            super().handle_error(request, client_address)

    # ---- what is answered to those who know the word

    def admit(self, act: Callable[[], None]) -> bool:
        """Does what a request asks for. False where too many are asked at once."""
        if not self._requests.acquire(blocking=False):
            return False
        try:
            act()
        finally:
            self._requests.release()
        return True

    def answer(self, connection: socket.socket, request: bytes) -> None:
        """Answers a request by a process."""
        if not self._processes.acquire(blocking=False):
            connection.sendall(BUSY)
            return
        try:
            self._answer(connection, request)
        finally:
            self._processes.release()

    def _answer(self, connection: socket.socket, request: bytes) -> None:
        try:
            answer = Answer(request)
        except OSError as error:
            connection.sendall(message(503, f"no answer can be made: {shown(reason_of(error))}"))
            return
        with self._lock:
            is_closed = self._is_closed
            self._answers.add(answer)
        try:
            if not is_closed:
                connection.sendall(head(200, "application/x-ndjson"))
                # The server's own end shows by that of the connection.
                if pass_on(connection, answer) and not self._is_closed:
                    connection.sendall(_NO_END)
        finally:
            answer.close()
            with self._lock:
                self._answers.discard(answer)


class _Bounded:
    """What is read of a request: a head, which has so many bytes, and a body."""

    def __init__(self, file: BinaryIO) -> None:
        self._file = file
        self._left = _MOST_OF_HEAD

    def readline(self, limit: int) -> bytes:
        if self._left <= 0:
            raise LineTooLong("head")
        line = self._file.readline(limit)
        self._left -= len(line)
        return line

    def read(self, count: int) -> bytes:
        return self._file.read(count)

    def close(self) -> None:
        self._file.close()


class _Request(BaseHTTPRequestHandler):
    """A request. Who isn't welcome learns nothing but that."""

    server: Server
    raw_requestline: bytes
    # Of a read or a write, whichever; `waiting` has that of a request as a whole.
    timeout = _PATIENCE

    def setup(self) -> None:
        super().setup()
        self.rfile = cast(Any, _Bounded(self.rfile))

    def handle(self) -> None:
        first = self.connection.recv(1, socket.MSG_PEEK)
        if first and first < b" ":
            # It is no text, as where HTTPS is spoken, and may have no line.
            self._refuse(400)
        elif first:
            super().handle()

    def parse_request(self) -> bool:
        line = _LINE.match(self.raw_requestline)
        if line is None:
            self._refuse(400)
            return False
        if not super().parse_request():
            return False
        # As it was sent, and one request of each connection.
        self.path, self.close_connection = line[1].decode(), True
        return True

    def do_GET(self) -> None:
        if self._rest() != "":
            self._refuse(404, "nothing is here")
        elif self.server.waiting.go(self.connection) and not self.server.admit(self._send_page):
            self.connection.sendall(BUSY)

    def do_POST(self) -> None:
        if self._rest() not in _REQUESTS or not self._is_of_page():
            self._refuse(404, "nothing is here")
            return
        length = self._length()
        if length < 0:
            self._refuse(411, "a request says how long it is")
        elif length > _MOST_BYTES:
            self._refuse(413, f"a request has at most {_MOST_BYTES} bytes")
        elif not self.server.admit(lambda: self._answer(length)):
            self._refuse(503, "too much is asked at once")

    def _send_page(self) -> None:
        self.connection.sendall(self.server.page)

    def _answer(self, length: int) -> None:
        waiting = self.server.waiting
        if not waiting.stay(self.connection, is_known=True):
            return
        body = self.rfile.read(length)
        if waiting.go(self.connection) and len(body) == length:
            self.server.answer(self.connection, body)

    # ---- who is welcome

    def _rest(self) -> str:
        """What stands after the word in the address; something that is nothing where the word isn't there."""
        start, *words = self.path.split("/", 2)
        server = self.server
        is_known = not start and len(words) == 2 and hmac.compare_digest(words[0], server.word)
        is_here = self.headers.get_all("Host") in ([f"{HOST}:{server.port}"], [f"localhost:{server.port}"])
        return words[1] if is_known and is_here else "/"

    def _is_of_page(self) -> bool:
        """Whether the page sent it: a browser says from where a page sends something, and asks before it sends JSON."""
        fields = self.headers
        is_own = fields.get("Origin") == f"http://{fields.get('Host')}"
        is_near = fields.get("Sec-Fetch-Site", "same-origin") == "same-origin"
        return is_own and is_near and fields.get("Content-Type") == "application/json"

    def _length(self) -> int:
        """How many bytes follow the head; -1 where it doesn't say that."""
        lengths: list[str] = self.headers.get_all("Content-Length", [])
        is_known = len(lengths) == 1 and _LENGTH.match(lengths[0]) and not self.headers.get("Transfer-Encoding")
        return int(lengths[0]) if is_known else -1

    # ---- who isn't

    def _refuse(self, status: int, text: str = "") -> None:
        """Answers that, and lets the other side end: who is cut off while it sends may never read the answer."""
        self.close_connection = True
        if not self.server.waiting.stay(self.connection, has_answer=True):
            return
        self.connection.sendall(message(status, text))
        self.connection.shutdown(socket.SHUT_WR)
        while self.connection.recv(_CHUNK):
            pass

    def send_error(self, code: int, message: str | None = None, explain: str | None = None) -> None:
        self._refuse(501 if code == 501 else 400)

    def handle_expect_100(self) -> bool:
        # Nothing is said before it is known who asks.
        return True

    def log_message(self, *_: object) -> None:
        pass
