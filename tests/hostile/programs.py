#!/usr/bin/env python3
"""programs.py [DIR]: tries the built programs on want of memory, on failing calls and streams, and on input made to hurt.

DIR holds dlx1, dlx2, dlx3, dlxcheck, dlx-count and dlx-none; without it they are taken from where `make test` leaves them. Each
try that goes wrong is told in a line. The last line is `N passed, M failed`. Needs cc for the parts that refuse memory
and let calls fail.
"""
import errno
import fcntl
import os
import signal
import subprocess
import sys
import tempfile
import time
from pathlib import Path

from collisions import MOST, ratios

HERE = os.path.dirname(os.path.abspath(__file__))
TOP = os.path.dirname(os.path.dirname(HERE))
PROGRAMS = sys.argv[1] if len(sys.argv) > 1 else None
tried = {"passed": 0, "failed": 0}
# What doesn't end in so many seconds never ends, whatever else the machine does.
HANG = 600


def path(program):
    crate = program.replace("-", "_")
    return os.path.join(PROGRAMS, program) if PROGRAMS else f"{TOP}/crates/{crate}/out/{crate}"


def tell(is_well, what):
    tried["passed" if is_well else "failed"] += 1
    if not is_well:
        print(what, flush=True)


def run(words, text=b"", **how):
    """Returns the status, standard output and standard error of a run."""
    done = subprocess.run([path(words[0]), *words[1:]], input=text, capture_output=True, **how)
    return done.returncode, done.stdout, done.stderr


def expect(what, words, text, status, out=None, err=None, **how):
    said = run(words, text, **how)
    wanted = (status, said[1] if out is None else out, said[2] if err is None else err)
    tell(said == wanted, f"{what}: {said[0]}, {said[1][:80]!r}, {said[2][:80]!r}, and not {status}, {(out or b'')[:80]!r}, {(err or b'')[:80]!r}")


# ---- want of memory

COLOURED = b"p q r | x y\np q x y:A\np r x:A y\np x:B\nq x:A\nr y:B\n"
BOUNDED = b"1:2|A B\nA\nA B\nB\n"
WITH_IGNORED = b"| test\r\n\r\nA | x\r\nx\r\nA x"


def thousand():
    """A problem of a thousand options, with colours in every second one."""
    names = [f"item{i}" for i in range(100)]
    lines = [" ".join(names[:50]) + " | " + " ".join(names[50:])]
    for o in range(1000):
        lines.append(f"item{o % 50} item{50 + o * 7 % 50}" + (f":c{o % 11}" if o % 2 else ""))
    return ("\n".join(lines) + "\n").encode()


def is_out_of_memory(said, usual):
    """Says whether this is the answer where memory is wanting: warnings may have been told before, and nothing is printed."""
    status, out, err = said
    told = err.removesuffix(b"Out of memory.\n")
    return status == 4 and out == b"" and told != err and usual[2].startswith(told)


# Three pigeons and two holes, and what shows that there is no solution.
PIGEONS = b"a b c | x y\na x\na y\nb x\nb y\nc x\nc y\n"
WEIGHTS, PROOF = b"1 1 1 -1 -1\n", b"-1 0\n0\n"


def shown(folder):
    """The file of this problem."""
    file = f"{folder}/pigeons.dlx"
    with open(file, "wb") as it:
        it.write(PIGEONS)
    return file


# Where memory for states is refused a count goes on without them, and reports that.
GAVE_UP = b"The states take too much memory: the search goes on alone.\n"


def refused_in_turn(what, shim, words, text):
    """Refuses each growth in turn, until there is none to refuse. Where memory is wanting nothing more is read."""
    usual = run(words, text)
    n, was_refused = 0, True
    while was_refused:
        n += 1
        with tempfile.TemporaryFile() as told:
            number = told.fileno()
            env = {**os.environ, "LD_PRELOAD": shim, "REFUSE": str(n), "REFUSE_FD": str(number)}
            said = run(words, text, env=env, pass_fds=[number])
            told.seek(0)
            calls = told.read()
            was_refused = calls != b""
        if was_refused and words[0] == "dlx-count":
            said = (said[0], said[1], said[2].replace(GAVE_UP, b"", 1))
        tell(said == usual or is_out_of_memory(said, usual), f"{what}, growth {n} refused: {said[0]}, {said[1][:80]!r}, {said[2][:80]!r}")
        if said != usual:
            tell(calls == b"m", f"{what}, growth {n} refused: {calls.count(b'r')} reads behind it")
    tell(said == usual and n > 3, f"{what}: the run without a refusal, number {n}, differs")


def want_of_memory(folder):
    shim = f"{folder}/refuse.so"
    subprocess.run(["cc", "-O1", "-shared", "-fPIC", "-o", shim, f"{HERE}/refuse.c"], check=True)
    refused_in_turn("colours", shim, ["dlx2", "m1"], COLOURED)
    refused_in_turn("bounds", shim, ["dlx3", "m1"], BOUNDED)
    refused_in_turn("an ignored option", shim, ["dlx1", "m1"], WITH_IGNORED)
    refused_in_turn("a thousand options", shim, ["dlx2", "m1", "t3"], thousand())
    refused_in_turn("a count of colours", shim, ["dlx-count", "2"], COLOURED)
    refused_in_turn("a count with an ignored option", shim, ["dlx-count", "1"], WITH_IGNORED)
    refused_in_turn("a count of dominoes", shim, ["dlx-count", "1"], dominoes(4, 4))
    refused_in_turn("a count of each option", shim, ["dlx-count", "1", "o"], dominoes(4, 4))
    refused_in_turn("a count of each option by a search", shim, ["dlx-count", "3", "o"], BOUNDED)
    for name, words, text in (
        ("colours", ["dlx2", "m1"], COLOURED),
        ("bounds", ["dlx3", "m1"], BOUNDED),
        ("an ignored option", ["dlx1", "m1"], WITH_IGNORED),
        ("a thousand options", ["dlx2", "m1", "t3"], thousand()),
    ):
        file = f"{folder}/problem.dlx"
        with open(file, "wb") as it:
            it.write(text)
        listing = run(words, text)[1]
        refused_in_turn(f"the judge on {name}", shim, ["dlxcheck", file, words[0][-1]], listing)
    file = shown(folder)
    refused_in_turn("clauses", shim, ["dlx-none", "1", file], b"")
    refused_in_turn("weights", shim, ["dlx-none", "1", file, "/dev/stdin", "w"], WEIGHTS)
    refused_in_turn("a proof", shim, ["dlx-none", "1", file, "/dev/stdin"], PROOF)


# ---- calls that fail

ERRORS = (errno.EIO, errno.EAGAIN, errno.EINTR, errno.ENOSPC)


def calls_of(shim, name, fail_at, error, words, text, **how):
    """Runs a program whose read or write of this number fails. Returns what `run` does, and its calls: asked and given."""
    with tempfile.TemporaryFile() as told:
        number = told.fileno()
        env = {**os.environ, "LD_PRELOAD": shim, "FAIL": name, "FAIL_AT": str(fail_at), "FAIL_ERROR": str(error), "FAIL_FD": str(number)}
        with tempfile.TemporaryFile() as given:  # a file, since how many reads a pipe takes goes by chance
            given.write(text)
            given.seek(0)
            done = subprocess.run([path(words[0]), *words[1:]], stdin=given, stderr=subprocess.PIPE, env=env, pass_fds=[number], timeout=HANG, **how)
        told.seek(0)
        calls = [tuple(map(int, line.split())) for line in told.read().splitlines()]
    return done.returncode, done.stdout, done.stderr, calls


def failed_at(listing, calls):
    """The messages that may be told of a write that failed: the one of the solution whose text was written then, and
    where no more text was to come that of a flush."""
    end = sum(given for _, given in calls[:-1]) + calls[-1][0]
    solutions = [line for line in listing[:end].splitlines() if not line.startswith(b" ")]
    may_flush = [b"Write failed.\n"] if end == len(listing) else []
    return [b"Write failed at solution " + solutions[-1].rstrip(b":") + b".\n"] + may_flush


def each_program(file, count):
    """The words and the input of a run of each of the four programs, with many solutions by so many options of two items."""
    plain = b"A B\n" + b"A\n" * count + b"B\n" * count
    with open(file, "wb") as it:
        it.write(plain)
    return (
        (["dlx1", "m1"], plain),
        (["dlx2", "m1"], plain.replace(b"A B\n", b"A B | x\n", 1)),
        (["dlx3", "m1"], plain.replace(b"A B\n", b"1:2|A 1:1|B\n", 1)),
        (["dlxcheck", file, "1"], run(["dlx1", "m1"], plain)[1]),
    )


def each_write_fails(shim, folder):
    """Each write to standard output fails in turn, once: it is told, the status is 3, and none is made after it."""
    for words, text in each_program(f"{folder}/writes.dlx", 20):
        usual = calls_of(shim, "write", 0, 0, words, text, stdout=subprocess.PIPE)
        tell(usual[:3] == run(words, text) and len(usual[3]) > 20, f"{words[0]}: {len(usual[3])} writes without a failure")
        for n in range(1, len(usual[3]) + 1):
            status, out, err, calls = calls_of(shim, "write", n, ERRORS[n % len(ERRORS)], words, text, stdout=subprocess.PIPE)
            wanted = [b"Write failed.\n"] if words[0] == "dlxcheck" else failed_at(usual[1], calls)
            is_right = status == 3 and err in wanted and usual[1].startswith(out) and len(calls) == n and calls[-1][1] == -1
            tell(is_right, f"{words[0]}, write {n} fails: {status}, {len(out)} bytes, {err[:80]!r}, {len(calls)} calls")


def each_read_fails(shim, folder):
    """Each read of standard input fails in turn, once: it is told, the status is 3, and none is made after it."""
    text = thousand()
    file = f"{folder}/reads.dlx"
    with open(file, "wb") as it:
        it.write(text)
    for words, given in ((["dlx1"], b"A\n" * 100000), (["dlx2", "t1"], text), (["dlx3", "t1"], text), (["dlx-count", "2", "b0", "n1"], text), (["dlx-count", "1", "o"], b"A\n" * 100000), (["dlxcheck", file, "2"], b"1:\n" * 100000)):
        reads = len(calls_of(shim, "read", 0, 0, words, given, stdout=subprocess.PIPE)[3])
        for n in range(1, reads + 1):
            status, out, err, calls = calls_of(shim, "read", n, ERRORS[n % len(ERRORS)], words, given, stdout=subprocess.PIPE)
            tell((status, out, err, len(calls)) == (3, b"", b"Read failed.\n", n), f"{words[0]}, read {n} fails: {status}, {err[:80]!r}, {len(calls)} calls")


def one_failed_call(shim, folder):
    """Outputs that fail for good, or only now: one call fails, and none is made after it."""
    for words, given in each_program(f"{folder}/failing.dlx", 100):
        whole = run(words, given)[1]

        def expect_one(what, said):
            status, _, err, calls = said
            wanted = [b"Write failed.\n"] if words[0] == "dlxcheck" else failed_at(whole, calls)
            is_right = status == 3 and err in wanted and [given for _, given in calls].index(-1) == len(calls) - 1
            tell(is_right, f"{words[0]} into {what}: {status}, {err[:80]!r}, {calls[-3:]}")

        with open("/dev/full", "wb") as full:
            expect_one("/dev/full", calls_of(shim, "write", 0, 0, words, given, stdout=full))
        ours, theirs = os.pipe()
        os.close(ours)
        expect_one("a closed pipe", calls_of(shim, "write", 0, 0, words, given, stdout=theirs))
        os.close(theirs)
        ours, theirs = os.pipe()
        for end in (ours, theirs):
            fcntl.fcntl(end, fcntl.F_SETFL, fcntl.fcntl(end, fcntl.F_GETFL) | os.O_NONBLOCK)
        fcntl.fcntl(theirs, fcntl.F_SETPIPE_SZ, 4096)
        said = calls_of(shim, "write", 0, 0, words, given, stdout=theirs)
        expect_one("a non-blocking pipe", said)
        taken = sum(given for _, given in said[3][:-1])
        tell(os.read(ours, 100000) == whole[:taken] and taken > 0, f"{words[0]} into a non-blocking pipe: {taken} bytes aren't a beginning")
        os.close(ours)
        os.close(theirs)


def failing_calls(folder):
    shim = f"{folder}/failing.so"
    subprocess.run(["cc", "-O1", "-shared", "-fPIC", "-o", shim, f"{HERE}/failing.c"], check=True)
    for part in (each_write_fails, each_read_fails, one_failed_call):
        part(shim, folder)


# ---- input made to hurt

def items(count):
    return b" ".join(b"n%d" % i for i in range(count))


def large_inputs():
    expect("100,000 items", ["dlx1"], items(100000) + b"\n", 0, b"", b"Altogether 0 solutions.\n")
    expect("100,001 items", ["dlx1"], items(100001) + b"\n", 2, b"", b"Line 1: too many items.\n")
    full = b"A | x y\n" + b"A x y\n" * 3333333 + b"A\n"
    expect("10,000,000 uses", ["dlx1", "t1"], full, 0, b"", b"Altogether 1 solution (limit).\n")
    expect("one use more", ["dlx1", "t1"], full + b"A\n", 2, b"", b"Line 3333336: too many uses.\n")
    told = b"Option ignored (no primary items): line 3333336\nAltogether 1 solution (limit).\n"
    expect("an ignored option behind them", ["dlx1", "t1"], full + b"x y\n", 0, b"", told)
    expect("a comment of 100 MB", ["dlx1", "m1"], b"|" + b"x" * 100000000 + b"\nA\nA\n", 0, b"1:\n A (1 of 1)\n", b"Altogether 1 solution.\n")
    expect("100 MB without a line feed", ["dlx1"], b"A " + b" " * 100000000, 0, b"", b"Altogether 0 solutions.\n")
    expect("a name of 100 MB", ["dlx1"], b"A" * 100000000, 2, b"", b"Line 1: name too long.\n")
    expect("a line of 100,000 spaces", ["dlx1"], b" " * 100000 + b"\nA\nA\n", 0, b"", b"Altogether 1 solution.\n")
    own = items(2000)
    expect("2,000 items with an option each", ["dlx1"], own + b"\n" + own.replace(b" ", b"\n") + b"\n", 0, b"", b"Altogether 1 solution.\n")


def long_tokens():
    """A token of 1,000 bytes in every place where one may stand, a NUL byte and bytes past ASCII."""
    long = b"x" * 1000
    for what, program, text, line, fault in (
        ("a primary item", "dlx1", long + b"\n", 1, "name too long"),
        ("a secondary item", "dlx1", b"A | " + long + b"\n", 1, "name too long"),
        ("a bound", "dlx3", b"1" * 1000 + b"|A\n", 1, "bad bound"),
        ("a bounded name", "dlx3", b"1|" + long + b"\n", 1, "name too long"),
        ("a use", "dlx1", b"A\n" + long + b"\n", 2, "name too long"),
        ("a coloured use", "dlx2", b"A | b\nA " + long + b":c\n", 2, "name too long"),
        ("a colour", "dlx2", b"A | b\nA b:" + long + b"\n", 2, "bad colour"),
        ("a NUL byte in a comment", "dlx1", b"| \0\nA\nA\n", 1, "NUL byte"),
    ):
        expect(f"1,000 bytes as {what}", [program], text, 2, b"", f"Line {line}: {fault}.\n".encode())
    expect("bytes past ASCII", ["dlx2", "m1"], b"\xff\xfe | \x80\n\xff\xfe \x80:\xf0\x9f\n", 0, b"1:\n \xff\xfe \x80:\xf0\x9f (1 of 1)\n", b"Altogether 1 solution.\n")


def chosen_words():
    """Names and colours that collide under the fixed seed are read in at most three times the time of words by chance."""
    for what, ratio in ratios(Path(PROGRAMS) if PROGRAMS else None):
        tell(ratio <= MOST, f"{what} that collide under the fixed seed: {ratio:.1f} times the time of others")


def cut_at_each_byte():
    """Each beginning of a problem is accepted or refused, and nothing else."""
    for n in range(len(COLOURED) + 1):
        status, out, err = run(["dlx2", "m1"], COLOURED[:n])
        tell(status in (0, 2) and (status == 0 or (out == b"" and err.startswith(b"Line "))), f"a problem cut at byte {n}: {status}, {err[:80]!r}")


def listing_cut_at_each_byte(folder):
    """Each beginning of a listing is judged or refused, with nothing printed where it is refused."""
    file = f"{folder}/cut.dlx"
    with open(file, "wb") as it:
        it.write(COLOURED)
    listing = run(["dlx2", "m1"], COLOURED)[1]
    for n in range(len(listing) + 1):
        status, out, err = run(["dlxcheck", file, "2"], listing[:n])
        tell((status in (0, 5) and err == b"") or (status == 2 and out == b"" and err.startswith(b"Listing line ")), f"a listing cut at byte {n}: {status}, {out[:80]!r}, {err[:80]!r}")


def deep(folder):
    """A search of 50,000 levels, and its listing judged, on a stack of 64 KB."""
    names = [b"n%d" % i for i in range(50000)]
    text = b" ".join(names) + b"\n" + b"\n".join(names) + b"\n"
    file = f"{folder}/deep.dlx"
    with open(file, "wb") as it:
        it.write(text)

    def small(words):
        return ["sh", "-c", 'ulimit -s 64; exec "$@"', "sh", path(words[0]), *words[1:]]

    done = subprocess.run(small(["dlx1", "m1"]), input=text, capture_output=True)
    tell(done.returncode == 0 and done.stdout.count(b"\n") == 50001, f"50,000 levels on a small stack: {done.returncode}")
    done = subprocess.run(small(["dlxcheck", file]), input=done.stdout, capture_output=True)
    tell((done.returncode, done.stdout) == (0, b"1: cover\n"), f"50,000 lines judged on a small stack: {done.returncode}, {done.stdout[:80]!r}")


# ---- what shows that there is no solution

def shown_badly(folder):
    """Weights and proofs that are large, cut or no such thing: none of them shows anything."""
    file = shown(folder)
    weights, proof = ["dlx-none", "1", file, "/dev/stdin", "w"], ["dlx-none", "1", file, "/dev/stdin"]
    expect("weights of pigeons", weights, WEIGHTS, 0, b"", b"No solution.\n")
    expect("a proof of pigeons", proof, PROOF, 0, b"", b"No solution.\n")
    for what, text, told in (
        ("no weights", b"", b"Weights: 0 numbers, and 5 items.\n"),
        ("10,000,000 weights", b"1\n" * 10000000, b"Weights: 10000000 numbers, and 5 items.\n"),
        ("100 MB of spaces as weights", b" " * 100000000, b"Weights: 0 numbers, and 5 items.\n"),
        ("a comment of 100 MB among weights", b"|" + b"1 " * 50000000, b"Weights: 0 numbers, and 5 items.\n"),
        ("a weight of 100 MB", b"1" * 100000000, b"Weights line 1: no weight.\n"),
        ("a NUL byte as a weight", b"1 1 1\n-1 \0\n", b"Weights line 2: no weight.\n"),
        ("a weight past ASCII", b"1 1 1\n\n-1 \xff\n", b"Weights line 3: no weight.\n"),
    ):
        expect(what, weights, text, 2, b"", told)
    for n in range(len(WEIGHTS) - 1):
        status, out, err = run(weights, WEIGHTS[:n])
        tell(status in (2, 5) and out == b"", f"weights cut at byte {n}: {status}, {out[:80]!r}, {err[:80]!r}")
    for n in range(len(PROOF) - 1):
        status, out, err = run(proof, PROOF[:n])
        tell(status in (0, 5) and out == b"", f"a proof cut at byte {n}: {status}, {out[:80]!r}, {err[:80]!r}")
    for what, text in (("text", PIGEONS), ("random bytes", os.urandom(100000)), ("a long step", b"17 " * 1000000 + b"0\n")):
        status, out, err = run(proof, text)
        tell(status == 5 and out == b"", f"{what} as a proof: {status}, {out[:80]!r}, {err[:80]!r}")


# ---- counts

def dominoes(rows, columns):
    cells = [(r, c) for r in range(rows) for c in range(columns)]
    options = [f"{r}.{c} {r + down}.{c + 1 - down}" for r, c in cells for down in (0, 1) if r + down < rows and c + 1 - down < columns]
    return "\n".join([" ".join(f"{r}.{c}" for r, c in cells), *options, ""]).encode()


def hurting():
    """Texts of some 1 MB each, with what dlx-count has to say of them within 1 MB of states; none where only a search of
    many years would tell."""
    names = [f"n{k}" for k in range(30000)]
    pairs = [f"{a} {b}" for k, a in enumerate(names[:400]) for b in names[k + 1 : 400]]
    yield "items with an option each", "1", "\n".join([" ".join(names), *names, ""]), "1 solution."
    yield "two options of each item", "1", "\n".join([" ".join(names), *names, *names, ""]), None
    yield "an option with all items", "1", "\n".join([" ".join(names), *[" ".join(names)] * 4, ""]), "4 solutions."
    yield "one item in all options", "1", "A\n" + "A\n" * 500000, "500000 solutions."
    yield "an item apart", "1", "\n".join([" ".join(names), *names[1:], ""]), "0 solutions."
    yield "a chain", "1", "\n".join([" ".join(names), *map(" ".join, zip(names, names[1:])), ""]), "1 solution."
    yield "a star of secondary items", "1", "\n".join([f"A B | {' '.join(names)}", *(f"A {n}" for n in names), *(f"B {n}" for n in names), ""]), None
    yield "a star of colours", "2", "\n".join(["A B | x", *(f"{it} x:{k}" for it in "AB" for k in range(50000)), ""]), None
    yield "pairs of 400 items", "1", "\n".join([" ".join(names[:400]), *pairs, ""]), None
    yield "a board of 100 by 100", "1", dominoes(100, 100).decode(), None
    yield "a strip of 3 by 10,000", "1", dominoes(3, 10000).decode(), None
    yield "secondary items in no option", "1", "\n".join([f"A | {' '.join(names)}", "A", ""]), "1 solution."
    yield "permutations of 300", "1", "\n".join([" ".join(names[:600]), *(f"{a} {b}" for a in names[:300] for b in names[300:600]), ""]), None


def counts():
    """A count ends soon where the number is near, and else goes on, in little more memory than its bound allows."""
    for what, kind, text, wanted in hurting():
        begun = time.monotonic()
        with subprocess.Popen([path("dlx-count"), kind, "b1"], stdin=subprocess.PIPE, stdout=subprocess.PIPE, stderr=subprocess.PIPE) as run_of_it:
            try:
                out, err = run_of_it.communicate(text.encode(), timeout=HANG if wanted else 10)
            except subprocess.TimeoutExpired:
                run_of_it.kill()
                out, err = run_of_it.communicate()
        took = time.monotonic() - begun
        said = err.removeprefix(GAVE_UP)
        is_right = out == b"" and (run_of_it.returncode == 0 and said.startswith(b"Altogether ") or not wanted and said == b"")
        tell(is_right and took < HANG and err.decode().endswith(f"Altogether {wanted}\n" if wanted else ""), f"a count of {what}: {run_of_it.returncode}, {err[:80]!r}, {took:.1f} s")


def most_memory(process):
    """The most megabytes that a running process had so far."""
    with open(f"/proc/{process.pid}/status") as told:
        return next(int(line.split()[1]) for line in told if line.startswith("VmHWM:")) / 1000


def bounds_of_counts():
    """The bound is kept, want of memory is told, and ^C ends a count at once."""
    for megabytes in (0, 1, 4, 40):
        with subprocess.Popen([path("dlx-count"), "1", f"b{megabytes}"], stdin=subprocess.PIPE, stderr=subprocess.PIPE) as count:
            count.stdin.write(dominoes(40, 40))
            count.stdin.close()
            time.sleep(3)
            is_counting = count.poll() is None
            most = most_memory(count) if is_counting else 0
            count.send_signal(signal.SIGINT)
            begun = time.monotonic()
            status = count.wait(HANG)
            told = count.stderr.read()
        is_silent = told == b"" or megabytes > 0 and told == GAVE_UP
        tell(is_counting and status == -signal.SIGINT and is_silent, f"a count that is stopped: {status}, {told[:80]!r}")
        tell(time.monotonic() - begun < 10, "a count that is stopped doesn't end at once")
        tell(most < 2 * megabytes + 20, f"a count within {megabytes} MB takes {most:.0f}")
    small = ["sh", "-c", 'ulimit -v 20000; exec "$@"', "sh", path("dlx-count"), "1", "b4000"]
    done = subprocess.run(small, input=dominoes(2, 30), capture_output=True)
    tell((done.returncode, done.stderr) == (0, b"Altogether 1346269 solutions.\n"), f"a count in 20 MB: {done.returncode}, {done.stderr[:80]!r}")
    done = subprocess.run(small, input=b"A\n" * 500000, capture_output=True)
    tell((done.returncode, done.stdout, done.stderr) == (4, b"", b"Out of memory.\n"), f"a count in 20 MB: {done.returncode}, {done.stderr[:80]!r}")


# ---- streams as they are

def streams(folder):
    text = b"A\nA\n"
    file = f"{folder}/small.dlx"
    with open(file, "wb") as it:
        it.write(text)

    def shell(what, command, status, err):
        done = subprocess.run(["sh", "-c", command], input=text, capture_output=True)
        tell((done.returncode, done.stderr) == (status, err), f"{what}: {done.returncode}, {done.stderr[:80]!r}")

    dlx1, judge = path("dlx1"), path("dlxcheck")
    shell("standard output full", f"{dlx1} m1 >/dev/full", 3, b"Write failed at solution 1.\n")
    shell("standard output full, nothing printed", f"{dlx1} >/dev/full", 0, b"Altogether 1 solution.\n")
    shell("standard error full", f"{dlx1} 2>/dev/full", 3, b"")
    shell("standard input a folder", f"{dlx1} <{folder}", 3, b"Read failed.\n")
    counter = path("dlx-count")
    shell("a count into standard error that is full", f"{counter} 1 2>/dev/full", 3, b"")
    shell("counts of options into standard output that is full", f"{counter} 1 o >/dev/full", 3, b"Write failed.\n")
    shell("a count of a folder", f"{counter} 1 <{folder}", 3, b"Read failed.\n")
    none = path("dlx-none")
    shell("clauses into standard output that is full", f"{none} 1 {shown(folder)} >/dev/full", 3, b"Write failed.\n")
    shell("clauses of a folder", f"{none} 1 {folder}", 3, b"Read failed.\n")
    shell("weights in a folder", f"{none} 1 {shown(folder)} {folder} w", 3, b"Read failed.\n")
    shell("a proof that is missing", f"{none} 1 {shown(folder)} {folder}/missing", 3, b"Read failed.\n")
    shell("a count of words that aren't UTF-8", f"{counter} 1 b$(printf '\\377')", 4, b"Out of memory.\n")
    ours, theirs = os.pipe()
    os.close(ours)
    done = subprocess.run([dlx1, "m1"], input=text, stdout=theirs, stderr=subprocess.PIPE)
    os.close(theirs)
    tell((done.returncode, done.stderr) == (3, b"Write failed at solution 1.\n"), f"a reader that goes away: {done}")
    shell("the judge's problem missing", f"{judge} {folder}/missing", 3, b"Read failed.\n")
    shell("the judge's problem a folder", f"{judge} {folder}", 3, b"Read failed.\n")
    shell("the judge's listing a folder", f"{judge} {file} <{folder}", 3, b"Read failed.\n")
    shell("the judge's output full", f"printf '1:\\n A (1 of 1)\\n' | {judge} {file} >/dev/full", 3, b"Write failed.\n")
    shell("the judge's problem not to be read", f"chmod 0 {file}; {judge} {file} 1 </dev/null; s=$?; chmod 644 {file}; exit $s", *unreadable(file))
    shell("a file size limit, its signal ignored", f"trap '' XFSZ; ulimit -f 0; {dlx1} m1 >{folder}/limited", 3, b"Write failed at solution 1.\n")
    shell("an argument that isn't UTF-8", f"{dlx1} $(printf '\\377')", 4, b"Out of memory.\n")
    for program, words, told in ((dlx1, ["m1"], b"Altogether 1 solution.\n"), (judge, [file], b"")):
        done = subprocess.run([b"/home/j\xf6rg/program", *words], executable=program, input=text if program == dlx1 else b"", capture_output=True)
        tell((done.returncode, done.stderr) == (0, told), f"a name of the program that isn't UTF-8: {done.returncode}, {done.stderr[:80]!r}")
    usage = b"Usage: dlxcheck PROBLEM [1|2|3]\n"
    shell("the judge's words wrong and its listing closed", f"{judge} {file} 4 <&-", 1, usage)
    shell("the judge's words wrong and its output closed", f"{judge} {file} 4 >&-", 1, usage)
    os.mkfifo(f"{folder}/pipe")
    shell("the judge's words wrong and its problem a pipe", f"timeout {HANG} {judge} {folder}/pipe 4", 1, usage)
    shell("the judge's listing closed and its problem a pipe", f"timeout {HANG} {judge} {folder}/pipe <&-", 3, b"Read failed.\n")
    shell("the judge's problem a pipe", f"(cat {file} >{folder}/pipe &) ; printf '1:\\n A (1 of 1)\\n' | {judge} {folder}/pipe", 0, b"")


def unreadable(file):
    """Status and message for a file without permissions, which the superuser reads all the same."""
    return (0, b"") if os.geteuid() == 0 else (3, b"Read failed.\n")


def main():
    with tempfile.TemporaryDirectory(prefix="hostile-") as folder:
        for part in (want_of_memory, failing_calls, listing_cut_at_each_byte, deep, shown_badly, streams):
            part(folder)
        for part in (chosen_words, large_inputs, long_tokens, cut_at_each_byte, counts, bounds_of_counts):
            part()
    print(f"{tried['passed']} passed, {tried['failed']} failed")
    return 1 if tried["failed"] else 0


if __name__ == "__main__":
    sys.exit(main())
