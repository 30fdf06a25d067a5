"""A problem, what the program in one says of it, and the commands of one try."""

import os
import re
import resource
import shutil
import signal
import subprocess
import sys
import tempfile
import time

TOP = os.path.dirname(os.path.dirname(os.path.dirname(os.path.abspath(__file__))))
sys.path[:0] = [os.path.join(TOP, "python"), os.path.join(TOP, "python", "tests")]
os.environ["PYTHONDONTWRITEBYTECODE"] = "1"

from helgrothy.make import langford, queens  # noqa: E402
from helgrothy._spans.folder import Look  # noqa: E402, F401
from problems import digest_of, narrow, problem_of  # noqa: E402, F401

NOT_DONE, CANT, STOPPED = 6, 2, (129, 130, 131, 143, -1, -2, -3, -9, -15)
# A command that doesn't end in so many seconds never ends, whatever else the machine does; a program whose command was ended
# ends long before so many.
LONG, SOON = 1800, 120
# A span has few steps and takes a moment, so that a small search has many. Each notes that it was begun.
SLOW = """\
#!/bin/sh
echo >>{begun}
sleep 0.0{pause}
[ "$3" != 0 ] && [ "$3" -le {most} ] && exec {program} "$@"
exec {program} "$1" "$2" {most} "$4" "$5"
"""
# A search has about so many spans, and is done by at most so many programs at once.
SPANS, MOST_JOBS = 60, 4


class Wrong(Exception):
    """What must not be."""


class Trial:
    """A try in a folder of its own. As a context manager it leaves nothing."""

    def __init__(self, rng):
        self.rng = rng
        self.top = tempfile.mkdtemp(prefix="search-")
        self.told = []
        self.running = []
        self.kind, self.text = self.some_problem()
        self.listed = rng.random() < 0.6
        self.path = os.path.join(self.top, "p.dlx")
        self.write(self.text)
        self.folder = f"{self.path}.search"
        self.program = shutil.which(f"dlx{self.kind}")
        self.whole = self.whole_of(self.text)
        self.bin = os.path.join(self.top, "bin")
        told = subprocess.run(["dlx-span", str(self.kind), "m0", "0", "-", "-"], input=self.text, capture_output=True)
        most = max(int(told.stdout.split()[-5]) // SPANS, 1)
        self.begun = os.path.join(self.top, "begun")
        how = {"begun": self.begun, "pause": rng.randint(1, 7), "most": most, "program": shutil.which("dlx-span")}
        self.slow = SLOW.format(**how)
        self.stand_in(self.slow)

    def __enter__(self):
        return self

    def __exit__(self, *_):
        for process in self.running:
            if process.poll() is None:
                os.killpg(process.pid, signal.SIGKILL)
                process.wait()
        shutil.rmtree(self.top, ignore_errors=True)

    def some_problem(self):
        """A kind and a text, of up to some seconds of a search."""
        rng = self.rng
        if rng.random() < 0.15:
            return rng.choice([1, 2, 3]), narrow(rng, rng.randint(6, 8))
        if rng.random() < 0.5:
            made = queens.problem(rng.randint(8, 10)) if rng.random() < 0.7 else langford.problem(rng.choice([7, 8]))
            text = made.text.encode()
            return rng.choice([1, 2, 3]), text
        kind = rng.choice([1, 2, 3])
        while True:
            items = rng.randint(8, 16)
            text = problem_of(rng, kind, items, rng.randint(4, 7) * items, rng.uniform(0.12, 0.35))
            if rng.random() < 0.3:
                text = text.replace(b"\n", b"\r\n")
            told = subprocess.run([f"dlx{kind}", "t30001"], input=text, capture_output=True, timeout=LONG)
            solutions = int(re.search(rb"Altogether (\d+)", told.stderr).group(1))
            if solutions <= 30_000 and (solutions > 50 or rng.random() < 0.02):
                return kind, text

    def whole_of(self, text):
        """What the program in one prints of a problem, and the messages."""
        done = subprocess.run([self.program, *(["m1"] if self.listed else [])], input=text, capture_output=True)
        return done.stdout, done.stderr

    def stand_in(self, script):
        """A script in the place of dlx-span."""
        os.makedirs(self.bin, exist_ok=True)
        path = os.path.join(self.bin, "dlx-span")
        with open(path, "w") as file:
            file.write(script)
        os.chmod(path, 0o755)

    def write(self, text):
        with open(self.path, "wb") as file:
            file.write(text)

    def say(self, what):
        self.told.append(what)

    def story(self):
        return "\n".join(f"    {line}" for line in self.told) + f"\n    kind {self.kind}, {len(self.text)} bytes"

    # ---- commands

    def words(self, *more):
        jobs = ["--jobs", str(self.rng.randint(1, MOST_JOBS))]
        return ["search", self.path, "--for", f"dlx{self.kind}", *(["--list"] if self.listed else []), *jobs, *more]

    def start(self, words, size=None, limit=None, **how):
        """A command in a group of its own, whose files have at most a size; limit: another resource and how much."""

        def bound():
            if limit is not None:
                resource.setrlimit(limit[0], (limit[1], limit[1]))
            if size is not None:
                resource.setrlimit(resource.RLIMIT_FSIZE, (size, size))
                # As on a full disk a write fails, and no signal comes.
                signal.signal(signal.SIGXFSZ, signal.SIG_IGN)

        bounds = [f" (files of {size} bytes)" if size is not None else "", f" (limit {limit})" if limit else ""]
        self.say(f"helgrothy {' '.join(words)}{''.join(bounds)}")
        out = tempfile.TemporaryFile()
        process = subprocess.Popen(
            ["helgrothy", *words],
            stdout=how.pop("stdout", out),
            stderr=subprocess.PIPE,
            stdin=subprocess.DEVNULL,
            start_new_session=True,
            preexec_fn=bound,
            env={**os.environ, "HELGROTHY_BIN": self.bin},
            **how,
        )
        process.out = out
        self.running.append(process)
        return process

    def end(self, process, may_be_killed=False, whole=None):
        """Waits for a command: its status, standard output and standard error, which are judged.

        whole: what it prints in the end, and its messages, where that isn't the `whole` of this try.
        """
        try:
            told = process.communicate(timeout=LONG)[1]
        except subprocess.TimeoutExpired:
            raise Wrong("it doesn't end") from None
        process.out.seek(0)
        printed = process.out.read()
        self.say(f"status {process.returncode}, {len(printed)} bytes, {told.decode(errors='replace').strip()[-300:]!r}")
        self.judge(process.returncode, printed, told, may_be_killed, whole or self.whole)
        return process.returncode, printed, told

    def judge(self, status, printed, told, may_be_killed, whole):
        lines = [line for line in told.splitlines(True) if not is_progress(line) and not is_of_a_dead_thread(line)]
        # Python itself may be interrupted before the command begins.
        is_pythons = may_be_killed and b"KeyboardInterrupt" in told and b"/helgrothy/" not in told
        if b"Traceback" in told and not is_pythons:
            raise Wrong(f"a traceback: {told.decode(errors='replace')}")
        if status == 0 and (printed, b"".join(lines)) != whole:
            raise Wrong(f"status 0, and {len(printed)} bytes for {len(whole[0])}, {b''.join(lines)!r}")
        if status != 0 and not whole[0].startswith(printed):
            raise Wrong(f"status {status}, and what was printed is no beginning")
        if status != 0 and not (may_be_killed and status in STOPPED) and not lines:
            raise Wrong(f"status {status} without a message")
        if status in STOPPED and not may_be_killed:
            raise Wrong(f"status {status}, and nobody has ended it")

    def run(self, *more, **how):
        return self.end(self.start(self.words(*more), **how))

    def finish(self):
        """The same command goes on to the whole, and leaves no folder."""
        status, _, told = self.run()
        if status != 0:
            raise Wrong(f"it doesn't go on: {told.decode(errors='replace')}")
        if os.path.lexists(self.folder):
            raise Wrong(f"the folder is left: {os.listdir(self.folder)}")
        self.leaves_none()

    def leaves_none(self):
        """No program of this try goes on."""
        until = time.monotonic() + SOON
        while left := list(self.programs()):
            if time.monotonic() > until:
                raise Wrong(f"programs are left: {left}")
            time.sleep(0.05)

    def spans_begun(self):
        """How many spans were begun."""
        return os.path.getsize(self.begun) if os.path.exists(self.begun) else 0

    def programs(self, name=b"dlx-"):
        """The processes of programs of this try, which know its folder of programs."""
        mark = f"HELGROTHY_BIN={self.bin}:".encode()
        for number in filter(str.isdigit, os.listdir("/proc")):
            try:
                with open(f"/proc/{number}/environ", "rb") as file:
                    is_ours = any(word.startswith(mark) for word in file.read().split(b"\0"))
                if is_ours:
                    with open(f"/proc/{number}/cmdline", "rb") as file:
                        words = file.read().split(b"\0")
                    if any(word.rpartition(b"/")[2].startswith(name) for word in words[:2]) or words[0] == b"sleep":
                        yield int(number)
            except OSError:
                pass

    def has_begun(self):
        """Whether the folder is that of a search: its first file is whole."""
        try:
            with open(os.path.join(self.folder, "helgrothy.search"), "rb") as file:
                return file.read().count(b"\n") == 7
        except OSError:
            return False

    def some_way(self):
        """A folder of a search that isn't done, or is by chance."""
        process = self.start(self.words())
        time.sleep(self.rng.uniform(0.4, 1.6))
        self.kill(process, self.rng.choice([signal.SIGKILL, signal.SIGTERM, signal.SIGINT]))
        return self.end(process, may_be_killed=True)[0]

    def kill(self, process, number):
        self.say(f"signal {number}")
        if process.poll() is None:
            os.kill(process.pid, number)

    def files(self):
        return [os.path.join(self.folder, name) for name in sorted(os.listdir(self.folder)) if name.endswith(".span")]


def is_progress(line):
    """A line of how far a search is, or goes on."""
    return bool(re.match(rb"[0-9.]+ %   [0-9,]+ solutions   |goes on at ", line))


def is_of_a_dead_thread(line):
    """A line in which Python itself reports a thread that died for lack of memory before its first line."""
    return bool(re.match(rb"Exception ignored in thread started by|MemoryError: ?$", line))
