"""Those who have come to the local page, as long as their requests aren't there.

Any process of this machine may connect, and then say nothing, or a byte now and then. `http.server` has a thread for
each connection, and its time is that of a single read: silent connections would have a thread each, and one that says
a byte now and then would have it for ever. So a request has a few seconds in all, and where too many wait the one that
came first goes.
"""

from __future__ import annotations

import resource
import socket
import threading
import time
from contextlib import suppress
from dataclasses import dataclass

from .heads import message

# Seconds for a head, for a body, and for what may follow the head of a request that is refused.
PATIENCE = 5.0
# So many wait at once who may not know the page's word, but no more than half of the files that may be open.
_MOST = 32

BUSY = message(503, "too much is asked at once")
LATE = message(408, f"a request comes within {PATIENCE:g} seconds")


@dataclass
class _Guest:
    """Who waits until when. is_known: its head had the word. has_answer: it has an answer, and is heard no more."""

    deadline: float
    is_known: bool = False
    has_answer: bool = False


class Waiting:
    """The connections that are waited for. The thread of one that is dismissed reads its end."""

    def __init__(self) -> None:
        files = resource.getrlimit(resource.RLIMIT_NOFILE)[0]
        self.most = _MOST if files == resource.RLIM_INFINITY else max(min(_MOST, files // 2), 1)
        self._lock = threading.Lock()
        # Who has waited longest is the first.
        self._guests: dict[socket.socket, _Guest] = {}

    def come(self, connection: socket.socket) -> None:
        """One has come, of whom nothing is known."""
        with self._lock:
            strangers = [one for one, guest in self._guests.items() if not guest.is_known]
            if len(strangers) >= self.most:
                self._dismiss(strangers[0], BUSY)
            self._guests[connection] = _Guest(time.monotonic() + PATIENCE)

    def stay(self, connection: socket.socket, *, is_known: bool = False, has_answer: bool = False) -> bool:
        """One has another few seconds, for its body or to read its answer. False where it was dismissed before."""
        with self._lock:
            was_there = self._guests.pop(connection, None) is not None
            if was_there:
                self._guests[connection] = _Guest(time.monotonic() + PATIENCE, is_known, has_answer)
            return was_there

    def go(self, connection: socket.socket) -> bool:
        """One isn't waited for any longer. False where it was dismissed before."""
        with self._lock:
            return self._guests.pop(connection, None) is not None

    def dismiss_first(self) -> bool:
        """Dismisses the one that has waited longest, if any waits."""
        with self._lock:
            first = next(iter(self._guests), None)
            if first is not None:
                self._dismiss(first, BUSY)
            return first is not None

    def dismiss_late(self) -> None:
        """Dismisses those whose time is over."""
        now = time.monotonic()
        with self._lock:
            for connection in [one for one, guest in self._guests.items() if guest.deadline <= now]:
                self._dismiss(connection, LATE)

    def close(self) -> None:
        """Dismisses all."""
        while self.dismiss_first():
            pass

    def _dismiss(self, connection: socket.socket, word: bytes) -> None:
        """Ends a connection, with a last word unless it had one."""
        guest = self._guests.pop(connection)
        with suppress(OSError):
            if not guest.has_answer:
                # Nothing was sent before, and this is little.
                connection.send(word)
            connection.shutdown(socket.SHUT_RDWR)
