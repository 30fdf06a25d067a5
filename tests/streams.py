#!/usr/bin/env python3
"""streams.py [FOLDER]: what the programs do with their standard streams, which no contract can say.

Each message is one write, and a read asks for all that its buffer holds; a solution is seen before the search ends; a
run that has what it was asked for ends, one whose write fails too, and a span without a bound doesn't; a closed stream
is reported; `dlx-join` names lines that are far down and rows that are long. FOLDER holds the programs; without it they
are taken from where the gate leaves them. Prints what is wrong, and nothing else; the status is then 1.
"""
import os
import select
import socket
import subprocess
import sys
import tempfile
import time
from collections.abc import Iterable, Iterator

from text_digest import closed

TOP = os.path.dirname(os.path.dirname(os.path.abspath(__file__)))
FOLDER = sys.argv[1] if len(sys.argv) > 1 else None
# What doesn't end in so many seconds never ends, whatever else the machine does.
HANG = 60
NOWHERE = subprocess.DEVNULL
PROBLEM = "problem 0123456789abcdef"
READ, WRITE = "Read failed.", "Write failed."


def path(program: str) -> str:
    crate = program.replace("-", "_")
    return f"{FOLDER}/{program}" if FOLDER else f"{TOP}/crates/{crate}/out/{crate}"


def command(words: list[str]) -> list[str]:
    return [path(words[0]), *words[1:]]


# ---- each message is one write

PROGRAMS = ["dlx1", "dlx2", "dlx3", "dlxcheck", "dlx-span", "dlx-join", "dlx-count", "dlx-none"]


def row(number: int, length: int) -> str:
    return ".".join([str(number)] * length)


def gap(met: str, begun: str) -> str:
    """Records of two spans that don't meet."""
    record = "solutions 0 steps 1 " + PROBLEM
    return closed(f"from - until {met} {record}") + closed(f"from {begun} until - {record}")


def messages() -> Iterator[tuple[list[str], str, int]]:
    """Commands, what they read, and how many lines they report."""
    for program in PROGRAMS:
        yield [program, "x"], "", 1
    yield ["dlx1"], "A\nA\n", 1
    yield ["dlx1"], "A | x\nx\nA\nx\n", 3
    yield ["dlx1"], "A | x\nA x:1\n", 1
    yield ["dlx2"], f"A\n{'B' * 100_000}\n", 1
    yield ["dlx-span", "3", "m0", "0", "-", "-"], "A | x\nx\n2:1|B\n", 1
    yield ["dlx-join", "m0"], gap(row(2, 1000), row(3, 1000)), 1
    yield ["dlx-count", "1"], "A | x\nx\nA\n", 2
    yield ["dlx-count", "3", "b0"], "A\nA\n", 1
    yield ["dlx-count", "1", "o"], "A | x\nx\nA\n", 2
    # A problem with one item and no option, from standard input; then there is nothing left of it.
    yield ["dlx-none", "1", "/dev/stdin", "/dev/stdin", "w"], "A\n", 1


def each_message_is_one_write() -> Iterator[str]:
    """Standard error is a socket that keeps packets apart."""
    for words, text, count in messages():
        ours, theirs = socket.socketpair(socket.AF_UNIX, socket.SOCK_SEQPACKET)
        with ours:
            with theirs:
                subprocess.run(command(words), input=text.encode(), stdout=NOWHERE, stderr=theirs, timeout=HANG)
            packets = list(iter(lambda: ours.recv(1 << 20), b""))
        if len(packets) != count or packets != b"".join(packets).splitlines(keepends=True):
            yield f"{' '.join(words)}: the writes {[packet[:60] for packet in packets]}"


# ---- a read asks for all that its buffer holds

OPTIONS = 8_190


def a_read_is_as_large_as_its_buffer() -> Iterator[str]:
    """Standard input is a socket that loses what a read leaves of a packet. The buffer has two bytes more than it."""
    ours, theirs = socket.socketpair(socket.AF_UNIX, socket.SOCK_SEQPACKET)
    with theirs:
        with ours:
            ours.send(b"A\n" * (OPTIONS + 1))
        done = subprocess.run(command(["dlx1"]), stdin=theirs, capture_output=True, timeout=HANG)
    told = done.stderr.decode().strip()
    if told != f"Altogether {OPTIONS} solutions.":
        yield f"dlx1 of one packet: {told}, not {OPTIONS} solutions"


# A listing of 16,384 bytes, and what `dlxcheck` says of it.
MEMBERS = 1091
MEMBER = " A (1 of 1)\n"
LISTING, VERDICTS = f"10000:\n{MEMBER}" + f"1:\n{MEMBER}" * MEMBERS, "10000: cover\n" + "1: cover\n" * MEMBERS


def a_listing_is_read_by_its_buffer() -> Iterator[str]:
    """The same of the listing, whose buffer is as long as the packet."""
    ours, theirs = socket.socketpair(socket.AF_UNIX, socket.SOCK_SEQPACKET)
    with theirs, tempfile.NamedTemporaryFile("w") as problem:
        problem.write("A\nA\n")
        problem.flush()
        with ours:
            ours.send(LISTING.encode())
        done = subprocess.run(command(["dlxcheck", problem.name]), stdin=theirs, capture_output=True, timeout=HANG)
    if done.stdout.decode() != VERDICTS:
        yield f"dlxcheck of a listing in one packet: {done.stdout[:60]!r}, {done.stderr[:60]!r}"


# ---- solutions are seen before the search ends

MANY = 200
PIGEONS, HOLES = [f"p{n}" for n in range(14)], [f"h{n}" for n in range(13)]


def many_and_then_none() -> str:
    """A problem of 200 solutions, after which the search goes on for hours without another."""
    branches = ["x " + " ".join(PIGEONS), "x"]
    more = [f"{pigeon} {hole}" for pigeon in PIGEONS for hole in HOLES]
    items = f"x y {' '.join(PIGEONS)} | {' '.join(HOLES)}"
    return "\n".join([items, *branches, *["y"] * MANY, *more, ""])


def solutions_of_many() -> str:
    """The 200 solutions as they are printed."""
    one = " x " + " ".join(PIGEONS) + " (1 of 2)\n y ({0} of 200)\n"
    return "".join(f"{n}:\n{one.format(n)}" for n in range(1, MANY + 1))


def seen(words: list[str], text: str, wanted: str, ours: int, theirs: int) -> str:
    """What a program that goes on prints of a text, once it has read its input, which stays open."""
    with subprocess.Popen(command(words), stdin=subprocess.PIPE, stdout=theirs, stderr=NOWHERE) as process:
        os.close(theirs)
        assert process.stdin is not None
        process.stdin.write(text.encode())
        process.stdin.flush()
        if not words[0].startswith("dlx-join"):
            process.stdin.close()
        printed, until = "", time.monotonic() + HANG
        while len(printed) < len(wanted) and process.poll() is None and time.monotonic() < until:
            if select.select([ours], [], [], 0.1)[0]:
                printed += os.read(ours, 1 << 16).decode().replace("\r", "")
        process.kill()
    os.close(ours)
    return printed


def solutions_are_seen_at_once() -> Iterator[str]:
    """The first one through a pipe, and each on a terminal."""
    heading = f"from - {PROBLEM}\n"
    listing = solutions_of_many()
    first = listing[: listing.index("2:\n")]
    runs = [(["dlx1", "m1"], many_and_then_none(), 0), (["dlx-join", "m1"], heading + listing, 0)]
    runs += [(["dlx-span", "1", "m1", "0", "-", "-"], many_and_then_none(), len(heading))]
    for words, text, before in runs:
        for what, wanted, (ours, theirs) in (("a pipe", first, os.pipe()), ("a terminal", listing, os.openpty())):
            printed = seen(words, text, " " * before + wanted, ours, theirs)
            if not printed[before:].startswith(wanted):
                yield f"{' '.join(words)} into {what}: {len(printed)} bytes are seen of {len(wanted)}"


# ---- a run ends once it has what it was asked for

SHORT = [
    (["dlx1", "m1", "t1"], "Altogether 1 solution (limit)."),
    (["dlx3", "m2", "t3"], "Altogether 3 solutions (limit)."),
    (["dlx-span", "1", "m1", "9", "-", "-"], ""),
    (["dlx-span", "1", "m0", "9", "-", "-"], ""),
]


def short_runs_of_long_searches() -> Iterator[str]:
    """The problem has 53,060,477,521,960,000 solutions."""
    for words, line in SHORT:
        with open(f"{TOP}/examples/dominoes.dlx", "rb") as problem:
            how = {"stdin": problem, "stdout": NOWHERE, "stderr": subprocess.PIPE, "timeout": HANG}
            try:
                told = subprocess.run(command(words), **how).stderr.decode().strip()
            except subprocess.TimeoutExpired:
                told = f"no end in {HANG} seconds"
        if told != line:
            yield f"{' '.join(words)} of the dominoes: {told}"


# ---- a run ends once a write failed

FULL = [
    (["dlx1", "m1"], "Write failed at solution 1."),
    (["dlx3", "m1"], "Write failed at solution 1."),
    (["dlx-span", "1", "m1", "0", "-", "-"], WRITE),
]


def failed_writes_of_long_searches() -> Iterator[str]:
    """The problem is that of the short runs, the device is full."""
    for words, line in FULL:
        with open(f"{TOP}/examples/dominoes.dlx", "rb") as problem, open("/dev/full", "wb") as full:
            how = {"stdin": problem, "stdout": full, "stderr": subprocess.PIPE, "timeout": HANG}
            try:
                done = subprocess.run(command(words), **how)
                told = done.returncode, done.stderr.decode().strip()
            except subprocess.TimeoutExpired:
                told = None, f"no end in {HANG} seconds"
        if told != (3, line):
            yield f"{' '.join(words)} of the dominoes into a full device: {told}"


# ---- a span without a bound goes to its end

PAIRS, ORDERS = 8, 40_320


def spans_without_bound() -> Iterator[str]:
    """All ways to pair eight with eight, for which the search begins some 20,000 branches."""
    ours, others = [[f"{letter}{n}" for n in range(PAIRS)] for letter in "ab"]
    text = "\n".join([" ".join(ours + others), *(f"{one} {other}" for one in ours for other in others), ""])
    for printed in ("m0", "m1"):
        words = ["dlx-span", "1", printed, "0", "-", "-"]
        done = subprocess.run(command(words), input=text.encode(), stdout=subprocess.PIPE, stderr=NOWHERE, timeout=HANG)
        record = done.stdout.decode().splitlines()[-1]
        if not record.startswith(f"from - until - solutions {ORDERS} steps "):
            yield f"{' '.join(words)} of {ORDERS} ways: {record}"


# ---- a closed stream is reported

# A command, what it reads, and for each stream that is closed, input, output, messages, its status and its message.
# Without messages a program that has nothing to report does its work.
CLOSED = [
    (["dlx1", "m1"], "A\nA\n", (3, READ), (3, "Write failed at solution 1."), (3, "")),
    (["dlx2"], "A\nA\n", (3, READ), (0, "Altogether 1 solution."), (3, "")),
    (["dlx3", "m1"], "A\nA\n", (3, READ), (3, "Write failed at solution 1."), (3, "")),
    (["dlxcheck", "{problem}"], "1:\n A (1 of 1)\n", (3, READ), (3, WRITE), (3, "")),
    (["dlx-span", "1", "m0", "0", "-", "-"], "A\nA\n", (3, READ), (3, WRITE), (0, "")),
    (["dlx-span", "1", "m1", "0", "-", "-"], "A\nA\n", (3, READ), (3, WRITE), (0, "")),
    (["dlx-join", "m1"], "{text}", (3, READ), (3, WRITE), (3, "")),
    (["dlx-join", "m1", "{file}"], "", (3, READ), (3, WRITE), (3, "")),
    (["dlx-count", "1"], "A\nA\n", (3, READ), (0, "Altogether 1 solution."), (3, "")),
    (["dlx-count", "1", "o"], "A\nA\n", (3, READ), (3, WRITE), (3, "")),
    (["dlx-none", "1", "{problem}"], "", (3, READ), (3, WRITE), (3, "")),
    (["dlx-none", "1", "{problem}", "{problem}"], "", (3, READ), (3, WRITE), (3, "")),
]


# They open files, so they look at their streams first and do nothing where one is closed.
LOOK_FIRST = ("dlxcheck", "dlx-join", "dlx-none")


def closed_streams() -> Iterator[str]:
    """Each of the three, also while a file is there to take its number."""
    text = closed(f"from - {PROBLEM}\n1:\n A (1 of 1)\nfrom - until - solutions 1 steps 1 {PROBLEM}")
    with tempfile.TemporaryDirectory(prefix="streams-") as folder:
        files = {"problem": f"{folder}/problem.dlx", "file": f"{folder}/listing.span", "text": text}
        for name, content in (("problem", "A\nA\n"), ("file", text)):
            with open(files[name], "w") as file:
                file.write(content)
        for words, given, *wanted in CLOSED:
            words = [word.format(**files) for word in words]
            for shut, (status, line) in zip(("<&-", ">&-", "2>&-"), wanted):
                shell = ["sh", "-c", f'exec "$@" {shut}', "sh", *command(words)]
                done = subprocess.run(shell, input=given.format(**files).encode(), capture_output=True, timeout=HANG)
                told = done.stderr.decode().strip()
                if (done.returncode, told) != (status, line) or words[0] in LOOK_FIRST and done.stdout:
                    printed = f", {len(done.stdout)} bytes are printed"
                    yield f"{' '.join(words)} {shut}: {done.returncode}, {told}{printed}; not {status}, {line}"


# ---- what dlx-join says of lines that are far down, and of long rows

FAR = 1_000_000


def joins() -> Iterator[tuple[str, str, str]]:
    """Words, texts, and what is reported of them."""
    choices = " A (1 of 1)\n" * FAR
    yield "m1", f"from - {PROBLEM}\n1:\n{choices}x\n", f"line {FAR + 3}: not the text of a span."
    for length in (2, 9, 10, 300):
        met, begun = row(2, length), row(3, length)
        yield "m0", gap(met, begun), f"line 2: gap from {met} until {begun}."


def places_in_texts() -> Iterator[str]:
    for words, text, line in joins():
        done = subprocess.run(command(["dlx-join", words]), input=text.encode(), stdout=NOWHERE, stderr=subprocess.PIPE)
        told = done.stderr.decode().strip()
        if told != f"standard input: {line}":
            yield f"dlx-join {words}: {told[:100]}, not {line[:100]}"


def main() -> int:
    parts: list[Iterable[str]] = [
        each_message_is_one_write(),
        a_read_is_as_large_as_its_buffer(),
        a_listing_is_read_by_its_buffer(),
        solutions_are_seen_at_once(),
        short_runs_of_long_searches(),
        failed_writes_of_long_searches(),
        spans_without_bound(),
        closed_streams(),
        places_in_texts(),
    ]
    lines = [line for part in parts for line in part]
    print(*lines, sep="\n", end="\n" if lines else "")
    return 1 if lines else 0


if __name__ == "__main__":
    sys.exit(main())
