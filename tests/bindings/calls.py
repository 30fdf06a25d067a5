#!/usr/bin/env python3
"""calls.py [LIBRARY]: makes each call of the shared library for C with known answers, by ctypes. Names that collide
under the fixed seed are read by that one, which is slow, and by a random one. A total is asked for with room for its
states and without.

Without LIBRARY it builds the library by library.py, and where there is no gcc it says so and passes. Prints what is
wrong, and nothing else; the status is then 1.
"""

from __future__ import annotations

import ctypes
import faulthandler
import re
import secrets
import shutil
import subprocess
import sys
import tempfile
import time
from ctypes import POINTER, byref, c_char_p, c_size_t, c_uint32, c_uint64, c_void_p
from pathlib import Path
from typing import Any, Callable, Iterator

TOP = Path(__file__).resolve().parent.parent.parent
BUILDER = TOP / "tests" / "bindings" / "library.py"
sys.path.insert(0, str(TOP / "tests" / "hostile"))
from collisions import WORDS, by_chance, colliding, of_names  # noqa: E402

# A call that doesn't end in so many seconds never ends, whatever else the machine does.
HANG = 120
PLAIN, COLOURS, BOUNDS = 1, 2, 3
DONE, NO_KIND, FAULT, NO_ROOM, LIMIT = 0, 1, 2, 3, 5
SEVEN = b"a b c d e f g\nc e\na d g\nb c f\na d f\nb g\nd e g\n"
LISTING = b"1:\n a d f (2 of 2)\n b g (1 of 1)\n c e (1 of 1)\n"
COLOURED = b"A B | x\nA x:1\nB x:1\nB x:2\n"
# Ways to take two or three of twenty.
TWENTY = b"2:3|a\n" + b"a\n" * 20


def pairs(count: int) -> bytes:
    """So many items with two equal options each: a search of all solutions takes twice as long for each item more."""
    names = [b"%d" % it for it in range(count)]
    return b"\n".join([b" ".join(names), *(it for name in names for it in (name, name))])


# 2^40 solutions, so a search of all doesn't end.
FORTY = pairs(40)

TEXT = (c_uint32, c_char_p, c_size_t, c_uint64)
# What stands behind the name of each call.
WORDS_OF = {
    "helgrothy_version": (),
    "helgrothy_fault": (*TEXT, POINTER(c_uint64), POINTER(c_uint32)),
    "helgrothy_count": (*TEXT, c_uint64, POINTER(c_uint64)),
    "helgrothy_total": (*TEXT, c_size_t, c_void_p, c_size_t, POINTER(c_size_t)),
    "helgrothy_list": (*TEXT, c_uint64, c_uint64, c_void_p, c_size_t, POINTER(c_size_t)),
}


class Library:
    """The calls, each with the text's length and a random seed, unless there is another."""

    def __init__(self, path: Path) -> None:
        library = ctypes.CDLL(str(path))
        self.calls: dict[str, Any] = {}
        for name, words in WORDS_OF.items():
            self.calls[name] = ctypes.CFUNCTYPE(c_uint32, *words)((name, library))

    def version(self) -> int:
        return self.calls["helgrothy_version"]()

    def fault(self, kind: int, text: bytes, seed: int | None = None) -> tuple[int, int, int]:
        line, fault = c_uint64(9), c_uint32(9)
        status = self.calls["helgrothy_fault"](*of(kind, text, seed), byref(line), byref(fault))
        return status, line.value, fault.value

    def count(self, kind: int, text: bytes, limit: int = 10) -> tuple[int, int]:
        number = c_uint64(9)
        status = self.calls["helgrothy_count"](*of(kind, text), limit, byref(number))
        return status, number.value

    def total(self, kind: int, text: bytes, room: int = 9, states: int = 1_000_000) -> tuple[int, bytes]:
        buffer, used = ctypes.create_string_buffer(room), c_size_t(9)
        status = self.calls["helgrothy_total"](*of(kind, text), states, buffer, room, byref(used))
        return status, buffer.raw[: used.value]

    def list(self, kind: int, text: bytes, room: int = 1000, spacing: int = 1, limit: int = 10) -> tuple[int, bytes]:
        buffer, used = ctypes.create_string_buffer(room), c_size_t(9)
        status = self.calls["helgrothy_list"](*of(kind, text), spacing, limit, buffer, room, byref(used))
        return status, buffer.raw[: used.value]


def of(kind: int, text: bytes, seed: int | None = None) -> tuple[int, bytes, int, int]:
    return kind, text, len(text), secrets.randbits(64) if seed is None else seed


# ---- known answers

# A call, its words, and its answer.
KNOWN: list[tuple[str, tuple[Any, ...], tuple[Any, ...]]] = [
    ("fault", (PLAIN, SEVEN), (DONE, 0, 0)),
    ("fault", (PLAIN, b"a b\na c\n"), (FAULT, 2, 11)),
    ("fault", (PLAIN, b"a b\na c\n", 0), (FAULT, 2, 11)),
    ("fault", (4, SEVEN), (NO_KIND, 0, 0)),
    ("count", (PLAIN, SEVEN), (DONE, 1)),
    ("count", (COLOURS, COLOURED), (DONE, 1)),
    ("count", (BOUNDS, TWENTY, 1_000_000), (DONE, 190 + 1140)),
    ("count", (BOUNDS, TWENTY, 1000), (LIMIT, 1000)),
    ("count", (PLAIN, FORTY, 3), (LIMIT, 3)),
    ("count", (PLAIN, b"a b\na\n"), (DONE, 0)),
    ("count", (PLAIN, b"a b\nc\n"), (FAULT, 0)),
    ("count", (0, SEVEN), (NO_KIND, 0)),
    ("total", (PLAIN, b"a b c\n" + b"a\na\nb\nb\nc\nc\n", 1), (DONE, b"8")),
    ("total", (COLOURS, COLOURED), (DONE, b"1")),
    ("total", (BOUNDS, TWENTY), (DONE, b"1330")),
    ("total", (BOUNDS, TWENTY, 3), (NO_ROOM, b"133")),
    ("total", (BOUNDS, TWENTY, 4, 0), (DONE, b"1330")),
    ("total", (PLAIN, FORTY, 20), (DONE, b"1099511627776")),
    ("total", (PLAIN, FORTY, 13), (DONE, b"1099511627776")),
    ("total", (PLAIN, FORTY, 4), (NO_ROOM, b"1099")),
    ("total", (PLAIN, b"a b\nc\n"), (FAULT, b"")),
    ("total", (4, SEVEN), (NO_KIND, b"")),
    ("list", (PLAIN, SEVEN), (DONE, LISTING)),
    ("list", (COLOURS, COLOURED), (DONE, b"1:\n A x:1 (1 of 1)\n B x:1 (1 of 1)\n")),
    ("list", (BOUNDS, b"0:1|a\na\n", 99, 2), (DONE, b"2:\n null a (2 of 2)\n")),
    ("list", (PLAIN, SEVEN, len(LISTING)), (DONE, LISTING)),
    ("list", (PLAIN, SEVEN, 10), (NO_ROOM, LISTING[:10])),
    ("list", (PLAIN, FORTY, 10), (NO_ROOM, b"1:\n 0 (1 o")),
    ("list", (PLAIN, SEVEN, 1000, 1, 1), (LIMIT, LISTING)),
    ("list", (PLAIN, b"a b\nc\n"), (FAULT, b"")),
    ("list", (4, SEVEN), (NO_KIND, b"")),
]


def answers(library: Library) -> Iterator[str]:
    header = (TOP / "bindings" / "c" / "helgrothy.h").read_text()
    if (named := re.findall(r"^uint32_t (\w+)\(", header, re.MULTILINE)) != list(WORDS_OF):
        yield f"the header names other calls: {' '.join(named)}"
    major, minor, patch = map(int, (TOP / "VERSION").read_text().split("."))
    if library.version() != 10000 * major + 100 * minor + patch:
        yield f"version: {library.version()}"
    for call, words, wanted in KNOWN:
        found = getattr(library, call)(*words)
        if found != wanted:
            told = [it[:40] if isinstance(it, bytes) else it for it in words]
            yield f"{call} of {', '.join(map(repr, told))}: {found}, not {wanted}"


# ---- how long calls take


def seconds(call: Callable[[], object], enough: float = 0, times: int = 7) -> float:
    """The least time of a processor that a call took of some, or one that is enough."""
    least = float("inf")
    for _ in range(times):
        begun = time.process_time()
        call()
        least = min(least, time.process_time() - begun)
        if least <= enough:
            break
    return least


FEWEST = 10


def bounds(library: Library) -> Iterator[str]:
    """A total without room for states goes by a search of 2^22 solutions, one with room by 22 states."""
    many, wanted = pairs(22), (DONE, b"%d" % 2**22)
    times = []
    for states in (1_000_000, 0):
        if (found := library.total(PLAIN, many, 9, states)) != wanted:
            yield f"total of 22 pairs in {states} bytes: {found}, not {wanted}"
        times.append(seconds(lambda: library.total(PLAIN, many, 9, states), times=2))
    if times[1] < FEWEST * times[0]:
        yield f"total without room for states takes {times[1] / times[0]:.1f} times as long as with it"


# ---- names that collide under the fixed seed

MOST = 3


def collisions(library: Library) -> Iterator[str]:
    collide, chance = of_names(colliding(WORDS)), of_names(by_chance(WORDS))
    usual = seconds(lambda: library.fault(PLAIN, chance))
    if seconds(lambda: library.fault(PLAIN, collide, 0), MOST * usual, 3) <= MOST * usual:
        yield "names that collide under the fixed seed are read by it as fast as others"
    for name in ("fault", "count", "total", "list"):
        taken = seconds(lambda: getattr(library, name)(PLAIN, collide), MOST * usual)
        if taken > MOST * usual:
            yield f"{name} of names that collide under the fixed seed: {taken / usual:.1f} times"


def tried(path: Path) -> int:
    faulthandler.dump_traceback_later(HANG, exit=True)
    library = Library(path)
    wrong = [line for part in (answers, bounds, collisions) for line in part(library)]
    print("\n".join(wrong), end="\n" * bool(wrong))
    return bool(wrong)


def main() -> int:
    if len(sys.argv) > 1:
        return tried(Path(sys.argv[1]))
    if not shutil.which("gcc"):
        print("there is no gcc, so the library for C isn't tried")
        return 0
    with tempfile.TemporaryDirectory() as folder:
        path = Path(folder) / "libhelgrothy.so"
        made = subprocess.run([sys.executable, "-B", str(BUILDER), str(path)], capture_output=True, text=True)
        if made.returncode:
            print(f"the library for C isn't built:\n{made.stdout}{made.stderr}")
            return 1
        return tried(path)


if __name__ == "__main__":
    sys.exit(main())
