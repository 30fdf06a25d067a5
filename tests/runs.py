#!/usr/bin/env python3
"""runs.py [FOLDER]: what the programs answer, by status, output and messages, to worked problems, listings and texts of
spans, to what each refuses, and to large problems.

What the solvers list, `dlxcheck` finds to be covers; a problem and a listing are cut at each byte. FOLDER holds the
programs; without it they are taken from where the gate leaves them. Prints what is wrong, and nothing else; the status
is then 1.
"""
import os
import random
import re
import resource
import subprocess
import sys
import tempfile
from collections.abc import Iterator
from typing import NamedTuple

from text_digest import closed

TOP = os.path.dirname(os.path.dirname(os.path.abspath(__file__)))
FOLDER = sys.argv[1] if len(sys.argv) > 1 else None

SEVEN = "a b c d e f g\nc e\na d g\nb c f\na d f\nb g\nd e g\n"
SEVEN_LISTING = "1:\n a d f (2 of 2)\n b g (1 of 1)\n c e (1 of 1)\n"
THREE = "A\nA\nA\nA\n"
THREE_LISTING = "1:\n A (1 of 3)\n2:\n A (2 of 3)\n3:\n A (3 of 3)\n"
COLOURED = "p q r | x y\np q x y:A\np r x:A y\np x:B\nq x:A\nr y:B\n"
COLOURED_LISTING = "1:\n q x:A (2 of 2)\n p r x:A y (1 of 1)\n"
TWICE = "1:2|A B\nA\nA B\nB\n"
ALONE = "0:2|A\nA\nA\n"
NULL = "0:1|null 0:2|A\nnull A\nA\n"


class Answer(NamedTuple):
    status: int
    output: str
    messages: str


def path(program: str) -> str:
    crate = program.replace("-", "_")
    return f"{FOLDER}/{program}" if FOLDER else f"{TOP}/crates/{crate}/out/{crate}"


def run(words: list[str], text: str) -> Answer:
    """What a program answers to arguments and standard input in a minute. A text stands for its bytes in latin-1."""
    command = [path(words[0]), *words[1:]]
    try:
        ended = subprocess.run(command, input=text.encode("latin-1"), capture_output=True, timeout=60)
    except subprocess.TimeoutExpired:
        return Answer(-1, "", "no end within a minute\n")
    return Answer(ended.returncode, ended.stdout.decode("latin-1"), ended.stderr.decode("latin-1"))


def measured(words: list[str], text: str) -> tuple[Answer, int]:
    """The same in a minute of CPU time, and the most megabytes that it had; those of this one, where it has more."""
    with tempfile.TemporaryFile() as given, tempfile.TemporaryFile() as out, tempfile.TemporaryFile() as err:
        given.write(text.encode("latin-1"))
        given.seek(0)
        process = subprocess.Popen(
            [path(words[0]), *words[1:]],
            stdin=given,
            stdout=out,
            stderr=err,
            preexec_fn=lambda: resource.setrlimit(resource.RLIMIT_CPU, (60, 60)),
        )
        _, status, used = os.wait4(process.pid, 0)
        process.returncode = os.waitstatus_to_exitcode(status)
        out.seek(0)
        err.seek(0)
        answer = Answer(process.returncode, out.read().decode("latin-1"), err.read().decode("latin-1"))
    return answer, used.ru_maxrss >> 10


def judge(words: list[str], problem: str, listing: str) -> Answer:
    """The same of `dlxcheck`, for which the problem is a file, with the arguments after it."""
    with tempfile.NamedTemporaryFile() as file:
        file.write(problem.encode("latin-1"))
        file.flush()
        return run(["dlxcheck", file.name, *words], listing)


def differs(what: str, found: Answer, wanted: Answer) -> Iterator[str]:
    if found != wanted:
        yield f"{what}: {found}, not {wanted}"


# ---- the solvers

# A command, the problem, its listing, and how many solutions are counted.
SOLVED = [
    ("dlx1 m1", SEVEN, SEVEN_LISTING, "1 solution"),
    ("dlx1 m2", THREE, "2:\n A (2 of 3)\n", "3 solutions"),
    ("dlx1 m1 t2", THREE, "1:\n A (1 of 3)\n2:\n A (2 of 3)\n", "2 solutions (limit)"),
    ("dlx1 m1 t3", THREE, THREE_LISTING, "3 solutions (limit)"),
    ("dlx1", THREE, "", "3 solutions"),
    ("dlx1 m1", "A B\nA\n", "", "0 solutions"),
    ("dlx1 m1", "ABCDEFGHI\n", "", "0 solutions"),
    ("dlx1 m1", "\xc3\xa9\n\xc3\xa9\n", "1:\n \xc3\xa9 (1 of 1)\n", "1 solution"),
    (
        "dlx1 m1",
        "A B | x y\nA x\nA y\nB x\nB y\nB\n",
        "1:\n A x (1 of 2)\n B y (1 of 2)\n2:\n A x (1 of 2)\n B (2 of 2)\n"
        "3:\n A y (2 of 2)\n B x (1 of 2)\n4:\n A y (2 of 2)\n B (2 of 2)\n",
        "4 solutions",
    ),
    ("dlx2 m1", COLOURED, COLOURED_LISTING, "1 solution"),
    ("dlx2 m1", "A B |x\nA x:1\nB x:1\nB x:2\nB x\n", "1:\n A x:1 (1 of 1)\n B x:1 (1 of 1)\n", "1 solution"),
    ("dlx2 m1", "A B | x\nA x:|\nB x:|\nB x::\n", "1:\n A x:| (1 of 1)\n B x:| (1 of 1)\n", "1 solution"),
    (
        "dlx2 m1",
        "A B | x\nA x:red\nB x:green\nB x:red\n",
        "1:\n A x:red (1 of 1)\n B x:red (1 of 1)\n",
        "1 solution",
    ),
    ("dlx2 m1", "A | x\nA x:12345678\n", "1:\n A x:12345678 (1 of 1)\n", "1 solution"),
    (
        "dlx3 m1",
        TWICE,
        "1:\n A (1 of 2)\n A B (1 of 2)\n2:\n A (1 of 2)\n null A (2 of 2)\n B (1 of 1)\n"
        "3:\n A B (2 of 2)\n null A (1 of 1)\n",
        "3 solutions",
    ),
    (
        "dlx3 m1",
        ALONE,
        "1:\n A (1 of 3)\n A (1 of 2)\n2:\n A (1 of 3)\n null A (2 of 2)\n"
        "3:\n A (2 of 3)\n null A (1 of 1)\n4:\n null A (3 of 3)\n",
        "4 solutions",
    ),
    ("dlx3 m1", "0:1|A\n", "1:\n null A (1 of 1)\n", "1 solution"),
    ("dlx3 m1", "999999999|A\nA\n", "", "0 solutions"),
    ("dlx3 m1", "2|A\nA\nA\n", "1:\n A (1 of 1)\n A (1 of 1)\n", "1 solution"),
    (
        "dlx3 m1",
        "2|A 0:1|B | x\nA B\nA x:1\nA x:2\nB\n",
        "1:\n A B (1 of 2)\n A x:1 (1 of 2)\n2:\n A B (1 of 2)\n A x:2 (2 of 2)\n",
        "2 solutions",
    ),
    (
        "dlx3 m1",
        "0:2|A B\nA B\nA\n",
        "1:\n B A (1 of 1)\n A (1 of 2)\n2:\n B A (1 of 1)\n null A (2 of 2)\n",
        "2 solutions",
    ),
    ("dlx3 m1", "2|A 2|B\nA B\nB A\n", "1:\n A B (1 of 1)\n A B (1 of 1)\n", "1 solution"),
]

# A command, and what is wrong with its arguments.
BAD_WORDS = [
    ("dlx1 t0", "Word 1: limit must be at least 1."),
    ("dlx1 t0 t5", "Word 1: limit must be at least 1."),
    ("dlx1 v1", "Word 1: unknown."),
    ("dlx1 m", "Word 1: bad number."),
    ("dlx1 m1 m18446744073709551616", "Word 2: bad number."),
]

# A program, a text, and its first fault.
FAULTY = [
    ("dlx1", "", "Line 1: no items."),
    ("dlx1", "| hi\n", "Line 2: no items."),
    ("dlx1", "A A", "Line 1: name repeated."),
    ("dlx1", "A | | x", "Line 1: second bar."),
    ("dlx1", "B|x A\n", "Line 1: bad byte in name."),
    ("dlx1", "1234567890" * 3 + "123", "Line 1: name too long."),
    ("dlx1", "| a\0b\nA\n", "Line 1: NUL byte."),
    ("dlx1", "A B\nA A \0\n", "Line 2: NUL byte."),
    ("dlx1", "A\nB", "Line 2: unknown item."),
    ("dlx1", "A B\nA ABCDEFGHIJ Q A\n", "Line 2: unknown item."),
    ("dlx1", "A B\nA B A\n", "Line 2: item repeated in option."),
    ("dlx1", "A | x\nx x", "Line 2: item repeated in option."),
    ("dlx1", "A | x\nA x:1", "Line 2: colour not allowed here."),
    ("dlx2", "A | x\nA:1", "Line 2: colour on a primary item."),
    ("dlx2", "A | x\nA x:", "Line 2: bad colour."),
    ("dlx2", "A | x\nA x:123456789", "Line 2: bad colour."),
    ("dlx2", "A | x\nA A:1", "Line 2: item repeated in option."),
    ("dlx2", "A\n:", "Line 2: empty name."),
    ("dlx3", "B|x A\n", "Line 1: bad bound."),
    ("dlx3", "9999999999|a", "Line 1: bad bound."),
    ("dlx3", "2:1|A", "Line 1: bound order."),
    ("dlx3", "0|A", "Line 1: bound order."),
    ("dlx3", "A |0|x", "Line 1: bound order."),
    ("dlx3", "A |1|x", "Line 1: bound on a secondary item."),
    ("dlx3", "2|", "Line 1: empty name."),
    ("dlx3", "1|2|A", "Line 1: bad byte in name."),
    ("dlx3", "A:b", "Line 1: bad byte in name."),
    ("dlx1", "\n| a\0b\nA A", "Line 2: NUL byte."),
    ("dlx1", "A || x", "Line 1: second bar."),
    ("dlx1", "A\n\n\tA |B", "Line 3: bad byte in name."),
    ("dlx1", "A | x\nx\ny", "Line 3: unknown item."),
    ("dlx1", "A\n" + "1234567890" * 3 + "123", "Line 2: name too long."),
    ("dlx2", "A | x\nA:", "Line 2: colour on a primary item."),
    ("dlx2", "A\n:A", "Line 2: empty name."),
    ("dlx3", "2||A", "Line 1: bad byte in name."),
    ("dlx3", "1:2", "Line 1: bad byte in name."),
    ("dlx3", "2|A\nA\nA 2|A", "Line 3: bad byte in name."),
    ("dlx3", "A||x", "Line 1: bad bound."),
    ("dlx3", "x|", "Line 1: bad bound."),
    ("dlx3", "1:|A", "Line 1: bad bound."),
    ("dlx3", ":1|A", "Line 1: bad bound."),
    ("dlx3", "1:2:3|A", "Line 1: bad bound."),
    ("dlx1", " ".join(map(str, range(100_001))), "Line 1: too many items."),
    ("dlx1", "a b c d e f g h i j\n" + "a b c d e f g h i j\n" * 1_000_000 + "a", "Line 1000002: too many uses."),
]

# A text whose last option repeats an item. What it is, cut after so many bytes or more, up to the next row.
REPEATED = "A B\nA B A\n"
CUT = [
    (0, Answer(2, "", "Line 1: no items.\n")),
    (1, Answer(0, "", "Altogether 0 solutions.\n")),
    (7, Answer(0, "1:\n A B (1 of 1)\n", "Altogether 1 solution.\n")),
    (9, Answer(2, "", "Line 2: item repeated in option.\n")),
]


def at_cut(cuts: list[tuple[int, Answer]], length: int) -> Answer:
    return [answer for start, answer in cuts if start <= length][-1]


def solvers() -> Iterator[str]:
    for command, problem, listing, count in SOLVED:
        wanted = Answer(0, listing, f"Altogether {count}.\n")
        yield from differs(f"{command} of {problem!r}", run(command.split(), problem), wanted)
        kind = command[len("dlx")]
        if not listing.startswith("1:"):
            continue
        covers = "".join(f"{line} cover\n" for line in listing.splitlines() if line.endswith(":"))
        yield from differs(f"the listing of {problem!r}", judge([kind], problem, listing), Answer(0, covers, ""))
    ignored = Answer(0, "1:\n A x (1 of 1)\n", "Option ignored (no primary items): line 4\nAltogether 1 solution.\n")
    yield from differs("an option without primary items", run(["dlx1", "m1"], "| test\r\n\r\nA | x\r\nx\r\nA x"), ignored)
    for command, message in BAD_WORDS:
        yield from differs(command, run(command.split(), ""), Answer(1, "", f"{message}\n"))
    yield from differs("dlx1 ''", run(["dlx1", ""], ""), Answer(1, "", "Word 1: unknown.\n"))
    for program, text, message in FAULTY:
        yield from differs(f"{program} of {text[:50]!r}", run([program, "m1"], text), Answer(2, "", f"{message}\n"))
    for length in range(len(REPEATED) + 1):
        text = REPEATED[:length]
        yield from differs(f"dlx1 of {text!r}", run(["dlx1", "m1"], text), at_cut(CUT, length))
    yield from large()
    yield from passed_over()


def mixed(generator: random.Random) -> str:
    """A problem of some ten items, of which two are secondary, with options that take up to three neighbours."""
    primary = [f"p{i}" for i in range(generator.randint(6, 14))]
    options = {(f"p{i}",) for i in range(len(primary))} if generator.random() < 0.7 else set()
    while len(options) < 3 * len(primary):
        at, many = generator.randrange(len(primary)), generator.randint(1, 3)
        options.add((*primary[at : at + many], *generator.sample(["s", "t"], generator.choice([0, 0, 0, 1]))))
    lines = [" ".join(option) for option in sorted(options)]
    generator.shuffle(lines)
    return f"{' '.join(primary)} | s t\n" + "\n".join(lines) + "\n"


def passed_over() -> Iterator[str]:
    """What a run prints of solutions that it mostly passes over, beside the listing, which is made by moves alone."""
    generator = random.Random(64)
    for problem in [queens(6), queens(8), *(mixed(generator) for _ in range(30))]:
        listing = run(["dlx1", "m1"], problem)
        # The number of a solution is on a line of its own.
        members = re.findall(r"[0-9]+:\n(?: [^\n]*\n)*", listing.output)
        for spacing, limit in [(2, 5), (3, len(members)), (7, 10**6), (10**6, 10**6), (len(members) or 1, 10**6)]:
            reached = min(limit, len(members))
            output = "".join(members[spacing - 1 : reached : spacing])
            plural = "" if reached == 1 else "s"
            message = f"Altogether {reached} solution{plural}{' (limit)' * (reached == limit)}.\n"
            found = run(["dlx1", f"m{spacing}", f"t{max(limit, 1)}"], problem)
            if limit:
                yield from differs(f"dlx1 m{spacing} t{limit} of {problem!r}", found, Answer(0, output, message))


def large() -> Iterator[str]:
    """Two thousand levels, twenty thousand solutions, and a file whose first and last bytes are in different reads."""
    items = "\n".join(map(str, range(2000)))
    deep = run(["dlx1"], f"{items.replace(chr(10), ' ')}\n{items}\n")
    yield from differs("2,000 items, each alone", deep, Answer(0, "", "Altogether 1 solution.\n"))
    many, problem = 20_000, "A\n" * 20_001
    listing = "".join(f"{n}:\n A ({n} of {many})\n" for n in range(1, many + 1))
    if run(["dlx1", "m1"], problem) != Answer(0, listing, f"Altogether {many} solutions.\n"):
        yield "20,000 equal options aren't listed"
    if judge(["1"], problem, listing) != Answer(0, "".join(f"{n}: cover\n" for n in range(1, many + 1)), ""):
        yield "20,000 covers aren't judged so"
    first_and_last = judge(["1"], "A B\n" + "A\n" * 40_000 + "B\n", "1:\n A (1 of 40000)\n B (1 of 1)\n")
    yield from differs("the judge of 40,000 options", first_and_last, Answer(0, "1: cover\n", ""))


# ---- the judge

# The arguments after the problem, the problem, a listing, and the status with the verdicts.
JUDGED = [
    ("2", COLOURED, "1:\n q x:A (1 of 1)\n p x:B (1 of 1)\n r y:B (1 of 1)\n", 5, "1: not a cover\n"),
    ("3", "2|A\nA\nA\n", "1:\n A (1 of 1)\n A (1 of 1)\n A (1 of 1)\n", 5, "1: not a cover\n"),
    ("3", "2|A\nA\nA\n", "", 0, ""),
    ("3", "2|A\nA\nA\n", "7:", 5, "7: not a cover\n"),
    ("3", "2|A\nA\nA\n", "18446744073709551615:\n", 5, "18446744073709551615: not a cover\n"),
    ("", "2|A\nA\nA\n", "1:\n", 5, "1: not a cover\n"),
    ("1", THREE, "1:\n A (1 of 3)\n1:\n A (9 of 0)\n", 0, "1: cover\n1: cover\n"),
    ("3", ALONE, "007:\n", 0, "7: cover\n"),
    ("3", ALONE, "4:\n null A (3 of 3)", 0, "4: cover\n"),
    ("3", "2|A 2|B\nA B\nB A\n", "1:\n A B (1 of 1)\n B A (1 of 1)\n", 0, "1: cover\n"),
    ("3", "2|A 2|B\nA B\nB A\n", "1:\n A B (1 of 1)\n A B (1 of 1)\n A B (1 of 1)\n", 5, "1: not a cover\n"),
]

# A listing of COLOURED, and what is wrong with it.
BAD_LISTINGS = [
    ("x", "line 1: bad line"),
    ("x\n", "line 1: bad line"),
    (" p x:B (1 of 1)\n", "line 1: bad line"),
    ("000000000000000000001:\n", "line 1: bad line"),
    ("18446744073709551616:\n", "line 1: bad line"),
    (":\n", "line 1: bad line"),
    ("1: \n", "line 1: bad line"),
    ("1:\r\n", "line 1: bad line"),
    ("1:\n\n", "line 2: bad line"),
    ("1:\n p  (1 of 1)\n", "line 2: bad line"),
    ("1:\n (1 of 1)\n", "line 2: bad line"),
    ("1:\n p x:B (12345678901 of 1)\n", "line 2: bad line"),
    ("1:\n p x:B (1 of 1) \n", "line 2: bad line"),
    ("1:\n p x:B (1 off 1)\n", "line 2: bad line"),
    ("1:\n p\tx:B (1 of 1)\n", "line 2: bad line"),
    ("1:\n q r (1 of 1)\n", "line 2: unknown option"),
    ("1:\n p x:B x:B (1 of 1)\n", "line 2: unknown option"),
    ("1:\n p x: (1 of 1)\n", "line 2: unknown option"),
    ("1:\n p x (1 of 1)\n", "line 2: unknown option"),
    ("1:\n null x (1 of 1)\n", "line 2: unknown option"),
    ("1:\n p x:B (1 of 1)\n q x:B (1 of 1)\n", "line 3: unknown option"),
]

# The listing of COLOURED, cut in the same way.
CUT_LISTING = [
    (0, Answer(0, "", "")),
    (1, Answer(2, "", "Listing line 1: bad line.\n")),
    (2, Answer(5, "1: not a cover\n", "")),
    (4, Answer(2, "", "Listing line 2: bad line.\n")),
    (18, Answer(5, "1: not a cover\n", "")),
    (20, Answer(2, "", "Listing line 3: bad line.\n")),
    (38, Answer(0, "1: cover\n", "")),
]


def judges() -> Iterator[str]:
    for words, problem, listing, status, verdicts in JUDGED:
        found = judge(words.split(), problem, listing)
        yield from differs(f"the judge of {listing!r}", found, Answer(status, verdicts, ""))
    for listing, message in BAD_LISTINGS:
        found = judge(["2"], COLOURED, listing)
        yield from differs(f"the judge of {listing!r}", found, Answer(2, "", f"Listing {message}.\n"))
    for length in range(len(COLOURED_LISTING) + 1):
        listing = COLOURED_LISTING[:length]
        yield from differs(f"the judge of {listing!r}", judge(["2"], COLOURED, listing), at_cut(CUT_LISTING, length))
    yield from differs("the judge of a fault", judge(["1"], "A\nB\n", "x"), Answer(2, "", "Line 2: unknown item.\n"))
    usage = Answer(1, "", "Usage: dlxcheck PROBLEM [1|2|3]\n")
    yield from differs("dlxcheck", run(["dlxcheck"], ""), usage)
    for more in (["4"], [""], ["1", "1"]):
        yield from differs(f"dlxcheck PROBLEM {more}", judge(more, "A\nA\n", ""), usage)
    # A line that begins with the name `null` may stand for no option as well: of these members one isn't a cover.
    listing = run(["dlx3", "m1"], NULL).output
    verdicts = "1: cover\n2: not a cover\n3: cover\n4: cover\n"
    yield from differs("the judge of an item named null", judge(["3"], NULL, listing), Answer(5, verdicts, ""))


# ---- spans

# The arguments of `dlx-span`, the problem, and the text of the span.
SPANS = [
    (
        "1 m1 0 - -",
        SEVEN,
        f"from - problem 5f4feb9a050fe0f5\n{SEVEN_LISTING}"
        "from - until - solutions 1 steps 5 problem 5f4feb9a050fe0f5 text dbe8d46a240a82d4\n",
    ),
    ("1 m0 2 - 2.1", SEVEN, "from - until 2 of 2 solutions 0 steps 2 problem 5f4feb9a050fe0f5 text e51b9ef4587523ae\n"),
    ("2 m0 0 2 -", THREE, "from 2 until - solutions 2 steps 1 problem 12589a6a85a80440 text 77535dd1d810060d\n"),
    (
        "3 m1 0 2.1 3",
        TWICE,
        "from 2.1 problem 18dfe1040992a59e\n1:\n A B (2 of 2)\n null A (1 of 1)\n"
        "from 2.1 until 3 solutions 1 steps 0 problem 18dfe1040992a59e text 63123e1822c3d431\n",
    ),
]

BAD_SPANS = ["", "1 m1 0 -", "4 m1 0 - -", "1 1 0 - -", "1 m1 t9 - -", "1 m1 0 2 1.9"]


def spans() -> Iterator[str]:
    for words, problem, text in SPANS:
        yield from differs(f"dlx-span {words}", run(["dlx-span", *words.split()], problem), Answer(0, text, ""))
    usage = Answer(1, "", "Usage: dlx-span 1|2|3 m0|m1 STEPS FROM UNTIL\n")
    for words in BAD_SPANS:
        yield from differs(f"dlx-span {words}", run(["dlx-span", *words.split()], SEVEN), usage)


# ---- joins

PROBLEM = "problem 0123456789abcdef"
OTHER = "problem 0123456789abcdee"
START = f"from - {PROBLEM}\n"
FIRST = "1:\n A (1 of 3)\n"


def record(until: str, solutions: int = 1, problem: str = PROBLEM) -> str:
    """The last line of a span from the start, up to the digest of the text."""
    return f"from - until {until} solutions {solutions} steps 1 {problem}"


# Three equal options in two spans; the search of the first stopped.
FRONT = f"{START}{FIRST}{record('2 of 3')}"
LISTED = closed(FRONT) + closed(
    f"from 2 {PROBLEM}\n1:\n A (2 of 3)\n2:\n A (3 of 3)\nfrom 2 until - solutions 2 steps 2 {PROBLEM}"
)
LAST = closed(f"from 2 until - solutions 2 steps 2 {PROBLEM}")
MOST = 2**64 - 1

# The word of `dlx-join`, the texts of spans, the listing, and how many solutions are counted.
JOINED = [
    ("m1", LISTED, THREE_LISTING, "3 solutions"),
    ("m0", closed(record("2 of 3")) + LAST, "", "3 solutions"),
    ("m1", closed(f"{START}{record('-', 0)}"), "", "0 solutions"),
    (
        "m0",
        closed(record("3.1.7 of 8.9.9", MOST)) + closed(f"from 3.1.7 until - solutions 1 steps 1 {PROBLEM}"),
        "",
        f"{MOST} solutions (limit)",
    ),
]

# The word, texts that don't fit together, what is listed before, the line, and what is wrong there.
GAPS = [
    ("m1", "", "", 1, "gap from - until -"),
    ("m1", f"from 2 {PROBLEM}\n", "", 1, "gap from - until 2"),
    ("m1", closed(f"{START}{FIRST}{record('2')}"), FIRST, 5, "gap from 2 until -"),
    ("m1", closed(f"{START}{FIRST}{record('2')}") + f"from 3 {PROBLEM}\n", FIRST, 5, "gap from 2 until 3"),
    ("m1", closed(f"{START}{record('2', 0)}") + START, "", 3, "gap from 2 until -"),
    ("m1", closed(f"{START}{record('-', 0)}") + START, "", 3, "gap from - until -"),
    (
        "m0",
        closed(record("2")) + closed(f"from 2 until - solutions 1 steps 1 {OTHER}"),
        "",
        2,
        "another problem than in standard input: line 1",
    ),
    (
        "m1",
        closed(f"{START}{FIRST}{record('2')}") + f"from 3 {OTHER}\n",
        FIRST,
        5,
        "another problem than in standard input: line 1",
    ),
]

# What is no text of a span, what is listed before, and the line.
NO_SPANS = [
    (closed(record("-", 0)), "", 1),
    ("1:\n", "", 1),
    ("from -", "", 1),
    ("from -\n", "", 1),
    (f"from - {PROBLEM}\r\n", "", 1),
    ("from - problem 0123456789ABCDEF\n", "", 1),
    (f"from - {PROBLEM[:-1]}\n", "", 1),
    (f"from 3..1 {PROBLEM}\n", "", 1),
    (f"from 3-1 {PROBLEM}\n", "", 1),
    (f"from 03 {PROBLEM}\n", "", 1),
    (f"from 18446744073709551616 {PROBLEM}\n", "", 1),
    (START, "", 2),
    (f"{START} A (1 of 3)\n", "", 2),
    (f"{START}2:\n", "", 2),
    (f"{START}1:\r\n", "", 2),
    (closed(f"{START}from 1 until 2 solutions 0 steps 1 {PROBLEM}"), "", 2),
    (f"{START}1:\n A (1 of 3)\r\n", "1:\n", 3),
    (f"{START}1:\n garbage \x01 (x\n", "1:\n", 3),
    (f"{START}{FIRST}1:\n", FIRST, 4),
    (closed(f"{START}{FIRST}{record('2', 2)}"), FIRST, 4),
    (closed(f"{START}{FIRST}{record('2', problem=OTHER)}"), FIRST, 4),
    (closed(f"{START}{FIRST}{record('2 of')}"), FIRST, 4),
    (closed(f"{START}{FIRST}{record('1')}"), FIRST, 4),
    (closed(f"{START}{FIRST}{record('0.9')}"), FIRST, 4),
    (closed(f"{START}{FIRST}from - until 2 solutions 1 steps {PROBLEM}"), FIRST, 4),
    (closed(f"{START}{FIRST}from - until 2 solutions 1 steps 01 {PROBLEM}"), FIRST, 4),
    (closed(f"{START}{FIRST}from - until 2 solutions 1 steps 1 {PROBLEM} "), FIRST, 4),
    (closed(f"{START}{FIRST}from - until 2 solutions 1 steps 1"), FIRST, 4),
    (f"{START}{FIRST}2:\n", f"{FIRST}2:\n", 5),
    (f"{START}{FIRST}2:\n A (0 of 3)\n", f"{FIRST}2:\n", 5),
    (f"{START}{FIRST}2:\n A B\n", f"{FIRST}2:\n", 5),
    (closed(f"{START}{FIRST}2:\n{record('2', 2)}"), f"{FIRST}2:\n", 5),
    (f"{START}{FIRST}2:\n A (1 of 3)\n3:\n", f"{FIRST}2:\n A (1 of 3)\n", 6),
    (f"{START}{FIRST}2:\n A (2 of 3)\n3:\n A (1 of 3)\n", f"{FIRST}2:\n A (2 of 3)\n3:\n", 7),
    # What the record tells of the text isn't so: it is left out or another one's, a line or the record was altered.
    (f"{FRONT}\n", FIRST, 4),
    (closed(FRONT).replace(" text ", " Text "), FIRST, 4),
    (f"{closed(FRONT)[:-1]} \n", FIRST, 4),
    (closed(FRONT).upper().replace("FROM", "from"), "", 1),
    (f"{FRONT}{closed(FRONT.replace('(1 of 3)', '(1 of 4)'))[len(FRONT):]}", FIRST, 4),
    (closed(FRONT).replace("(1 of 3)", "(1 of 4)"), FIRST.replace("3", "4"), 4),
    (closed(FRONT).replace(" A (1", " B (1"), FIRST.replace("A", "B"), 4),
    (closed(FRONT).replace("steps 1", "steps 2"), FIRST, 4),
    (closed(FRONT).replace("of 3 solutions", "of 4 solutions"), FIRST, 4),
    (closed(f"{START}{FIRST} B (1 of 1)\n{record('2')}").replace(" B (1 of 1)\n", ""), FIRST, 4),
]


# The bytes of a file's name, and how a message writes them.
NAMES = [
    (b"1 ~.span", "1 ~.span"),
    (b"\x1b]0;x\x07", "\\x1b]0;x\\x07"),
    (b"a\nb", "a\\x0ab"),
    (b"\x7f\xc2\x9b1m", "\\x7f\\xc2\\x9b1m"),
    (b"\x1f ~", "\\x1f ~"),
    (b"\\x1b", "\\x5cx1b"),
]


def names() -> Iterator[str]:
    """Where the text in a file isn't one of the first span."""
    program = os.path.abspath(path("dlx-join"))
    with tempfile.TemporaryDirectory() as folder:
        for name, shown in NAMES:
            with open(os.path.join(folder.encode(), name), "w") as file:
                file.write(closed(f"from 2 until - solutions 1 steps 1 {PROBLEM}"))
            ended = subprocess.run([program, "m0", name], cwd=folder, capture_output=True, timeout=60)
            wanted = f"{shown}: line 1: gap from - until 2.\n".encode()
            if (ended.returncode, ended.stderr) != (5, wanted):
                yield f"dlx-join m0 {name!r}: {ended.returncode}, {ended.stderr!r}, not {wanted!r}"


def many_files() -> Iterator[str]:
    """Two hundred spans of a solution each, in as many files."""
    marks = ["-", *map(str, range(2, 201)), "-"]
    with tempfile.TemporaryDirectory() as folder:
        files = [os.path.join(folder, str(number)) for number in range(1, 201)]
        for number, (begun, until, name) in enumerate(zip(marks, marks[1:], files), 1):
            with open(name, "w") as file:
                heading = f"from {begun} {PROBLEM}\n1:\n A ({number} of 200)\n"
                file.write(closed(f"{heading}from {begun} until {until} solutions 1 steps 1 {PROBLEM}"))
        found = run(["dlx-join", "m1", *files], "")
    listing = "".join(f"{number}:\n A ({number} of 200)\n" for number in range(1, 201))
    yield from differs("dlx-join m1 of 200 files", found, Answer(0, listing, "Altogether 200 solutions.\n"))


def joins() -> Iterator[str]:
    for word, text, listing, count in JOINED:
        found = run(["dlx-join", word], text)
        yield from differs(f"dlx-join {word} of {text!r}", found, Answer(0, listing, f"Altogether {count}.\n"))
    for word, text, listing, line, message in GAPS:
        wanted = Answer(5, listing, f"standard input: line {line}: {message}.\n")
        yield from differs(f"dlx-join {word} of {text!r}", run(["dlx-join", word], text), wanted)
    for text, listing, line in NO_SPANS:
        wanted = Answer(2, listing, f"standard input: line {line}: not the text of a span.\n")
        yield from differs(f"dlx-join m1 of {text!r}", run(["dlx-join", "m1"], text), wanted)
    yield from names()
    yield from many_files()
    usage = Answer(1, "", "Usage: dlx-join m0|m1 [FILE..]\n")
    for command in (["dlx-join"], ["dlx-join", "m2"]):
        yield from differs(" ".join(command), run(command, LISTED), usage)


# ---- counts


def counts() -> Iterator[str]:
    """A number of 134 bits, its last solution, and one more; and counts that take more than the search's first turn."""
    items, many = [f"i{n}" for n in range(31)], 20**31
    problem = " ".join(items) + "\n" + "".join(f"{item}\n" * 20 for item in items)
    last = f"{many}:\n" + "".join(f" {item} (20 of 20)\n" for item in items)
    for word, wanted in (
        ("", Answer(0, "", f"Altogether {many} solutions.\n")),
        (f"n{many}", Answer(0, last, "")),
        (f"n{many + 1}", Answer(5, "", f"There are fewer than {many + 1} solutions.\n")),
    ):
        yield from differs(f"dlx-count 1 {word}", run(["dlx-count", "1", *word.split()], problem), wanted)
    yield from long_counts()


# Many more than the solutions of any search here.
TILINGS = 53060477521960000
GAVE_UP = "The states take too much memory: the search goes on alone.\n"
# In as many megabytes Python's own fit too, and the states of these sweeps don't.
FEW_MEGABYTES = 40


def queens(n: int) -> str:
    rows, columns = [f"r{i}" for i in range(n)], [f"c{i}" for i in range(n)]
    diagonals = [f"{line}{i}" for line in "ab" for i in range(2 * n - 1)]
    options = [f"r{r} c{c} a{r + c} b{r - c + n - 1}\n" for r in range(n) for c in range(n)]
    return f"{' '.join(rows + columns)} | {' '.join(diagonals)}\n{''.join(options)}"


def long_counts() -> Iterator[str]:
    """A number past the end, which no search comes to; a count where the search beside the sweep ends first, and so the
    states stay few; and a bound of memory, without which the states that are kept take 200 megabytes."""
    with open(f"{TOP}/examples/dominoes.dlx") as file:
        dominoes = file.read()
    for words, wanted in (
        ([], Answer(0, "", f"Altogether {TILINGS} solutions.\n")),
        ([f"n{TILINGS + 1}"], Answer(5, "", f"There are fewer than {TILINGS + 1} solutions.\n")),
    ):
        yield from differs(f"dlx-count 1 {words} of dominoes", run(["dlx-count", "1", *words], dominoes), wanted)
    yield from differs("dlx-count 1 of queens", run(["dlx-count", "1"], queens(10)), run(["dlx1"], queens(10)))
    counted = "Altogether 14200 solutions.\n"
    # With all the memory that it may have, the search is the first as well.
    for words in ([], ["o"], ["b1", "o"]):
        found, megabytes = measured(["dlx-count", "1", *words], queens(12))
        messages = GAVE_UP + counted if "b1" in words else counted
        if (found.status, found.messages) != (0, messages) or megabytes > FEW_MEGABYTES:
            yield f"dlx-count 1 {words} of queens: {found.status}, {found.messages!r}, {megabytes} megabytes"
    # A count of what the first branch leaves would take 390 megabytes.
    found, megabytes = measured(["dlx-count", "1", "n1"], queens(16))
    if found != Answer(0, run(["dlx1", "m1", "t1"], queens(16)).output, "") or megabytes > FEW_MEGABYTES:
        yield f"dlx-count 1 n1 of queens: {found}, {megabytes} megabytes"
    yield from long_numbers()


def timed(words: list[str], problem: str) -> tuple[Answer, float]:
    """An answer, and how many seconds of a processor it took."""
    before = resource.getrusage(resource.RUSAGE_CHILDREN).ru_utime
    answer = run(words, problem)
    return answer, resource.getrusage(resource.RUSAGE_CHILDREN).ru_utime - before


def choices_of_two(many: int) -> tuple[list[str], str]:
    """So many items, each with two options, and their problem."""
    items = [f"i{n}" for n in range(many)]
    return items, f"{' '.join(items)}\n" + "".join(f"{item}\n{item}\n" for item in items)


def long_numbers() -> Iterator[str]:
    """Numbers of 1,800 digits for 12,000 options, and the first solution in the second half of 2^1600. The times that
    are allowed are some three times those that were seen."""
    found, taken = timed(["dlx-count", "1", "o"], choices_of_two(6000)[1])
    if found.status != 0 or taken > 1.2:
        yield f"dlx-count 1 o of 6,000 choices of two: status {found.status}, {taken:.1f} seconds of a processor"
    items, problem = choices_of_two(1600)
    number = 2**1599 + 1
    chosen = "".join(f" {item} ({2 if item == items[0] else 1} of 2)\n" for item in items)
    found, taken = timed(["dlx-count", "1", f"n{number}"], problem)
    if found != Answer(0, f"{number}:\n{chosen}", "") or taken > 2:
        yield f"dlx-count 1 n of 1,600 choices of two: status {found.status}, {taken:.1f} seconds of a processor"


def main() -> int:
    # Counts first: what is measured of a program's memory is never less than this process has by then.
    wrong = [line for part in (counts, solvers, judges, spans, joins) for line in part()]
    print("\n".join(wrong), end="\n" * bool(wrong))
    return bool(wrong)


if __name__ == "__main__":
    sys.exit(main())
