"""The line on a terminal that says how far a command is: by a terminal of its own for each command."""

import os
import pty
import re
import signal
import subprocess
import sys
import threading
import time
import unittest

from folders import InFolder
from test_allowed import MANY, MANY_BANS

import helgrothy
from helgrothy import make
from helgrothy._cli.line import LINE, Report
from helgrothy._run import report as reports
from helgrothy._spans import progress
from helgrothy._text.listing import Step

PACKAGE = os.path.dirname(os.path.dirname(os.path.abspath(helgrothy.__file__)))
ERASED = "\r\x1b[K"


class OnTerminal:
    """A command whose standard error is a terminal; `shown` is what that got."""

    def __init__(self, *words: str, **environment: str) -> None:
        own, its = pty.openpty()
        variables = {**os.environ, "TERM": "xterm", "PYTHONPATH": PACKAGE, **environment}
        command = [sys.executable, "-m", "helgrothy", *words]
        how = {"stdin": subprocess.DEVNULL, "stdout": subprocess.DEVNULL, "stderr": its, "env": variables}
        self._process = subprocess.Popen(command, **how)  # type: ignore[call-overload]
        os.close(its)
        self._shown = b""
        self._reader = threading.Thread(target=self._read, args=[own])
        self._reader.start()

    def _read(self, own: int) -> None:
        with open(own, "rb", buffering=0) as file:
            try:
                while chunk := file.read(1 << 16):
                    self._shown += chunk
            except OSError:
                # So the end of a terminal shows.
                pass

    def shown(self) -> str:
        """All that it got, once the command has ended."""
        self._process.wait()
        self._reader.join()
        return self._shown.decode()

    def until(self, wanted: str) -> str:
        """The same, where the command is stopped as soon as it got this."""
        for _ in range(600):
            if re.search(wanted, self._shown.decode()) or self._process.poll() is not None:
                break
            time.sleep(0.1)
        self._process.send_signal(signal.SIGINT)
        return self.shown()


class Lines(InFolder):
    def test_each_command_has_a_line(self):
        """Each of these takes longer than anybody waits, and is stopped once it has its line."""
        queens = self.file("queens.dlx", make.queens.problem(20).text)
        costs = self.file("costs", "".join(f"{(37 * place) % 101}\n" for place in range(24 * 24)))
        pairs = self.file("pairs.dlx", make.langford.problem(18).text)
        share = r"[0-9,]+ found, (less than 0.1|[0-9.]+) % of the tree"
        commands = {
            r"dlx-count and dlx1 count; fewer than 100 found": ["count", pairs],
            rf"dlx-count and dlx1 count; {share}": ["queens", "17", "--random"],
            r"dlx1 (and \w+ search|searches)": ["langford", "18"],
            rf"dlx1 searches; {share}": ["solve", queens, "--all"],
            r"dlx-count and dlx1 search": ["solve", queens, "--number", "9999999999"],
            r"dlx-span searches": ["langford", "18", "--shuffle", "1"],
            r"[^\r]*search(es)?; best so far -?[0-9.]+": ["queens", "24", "--cost", costs],
            r"[^\r]* searches; best so far [34][0-9] tests": ["tests", self.file("many", MANY + MANY_BANS), "--least"],
        }
        begun = {wanted: OnTerminal(*words) for wanted, words in commands.items()}
        for wanted, command in begun.items():
            shown = command.until(rf"\r\x1b\[K[0-9]+ s; {wanted}")
            with self.subTest(wanted=wanted):
                self.assertRegex(shown, rf"\r\x1b\[K[0-9]+ s; {wanted}")
                # It is gone at the end, where the command may have come to before.
                self.assertNotRegex(shown.split(ERASED)[-1], r"\A[0-9:]+( s)?; ")

    def test_it_is_gone_before_what_is_said(self):
        shown = OnTerminal("count", self.file("queens.dlx", make.queens.problem(20).text), "--seconds", "3.5").shown()
        # Before that it may have been reported that the states take too much memory.
        self.assertRegex(
            shown,
            r"(\r\x1b\[K|\r\n)helgrothy: it wasn't done in 3.5 seconds; [0-9]+ solutions till then\r\n\Z|\Ahelgrothy: ",
        )

    def test_there_is_none_elsewhere(self):
        queens = self.file("queens.dlx", make.queens.problem(20).text)
        command = [sys.executable, "-m", "helgrothy", "count", queens, "--seconds", "3"]
        environment = {**os.environ, "TERM": "xterm", "PYTHONPATH": PACKAGE}
        dumb = OnTerminal("count", queens, "--seconds", "3", TERM="dumb")
        done = subprocess.run(command, env=environment, stderr=subprocess.PIPE, text=True)
        for shown in (done.stderr, dumb.shown().replace("\r\n", "\n")):
            self.assertRegex(shown, r"\Ahelgrothy: [^\r]+\n\Z")

    def test_a_short_command_has_none(self):
        self.assertEqual(OnTerminal("queens", "6").shown(), "Altogether 1 solution (limit).\r\n")

    def test_text(self):
        report = Report(["dlx-count", "dlx1"], "count")
        self.assertEqual(str(report), "0 s; dlx-count and dlx1 count")
        report(at_work=["dlx1"], far="12.3 % of the tree")
        self.assertEqual(str(report), "0 s; dlx1 counts; 12.3 % of the tree")
        report = Report(["dlx3", "clasp", "cbc"])
        report(best="43622")
        self.assertEqual(str(report), "0 s; dlx3, clasp and cbc search; best so far 43622")
        report(at_work=["dlx3"])
        report._begun -= 125
        self.assertEqual(str(report), "2:05; dlx3 searches; best so far 43622")
        reports.unheard(at_work=["dlx3"], best="1")

    def test_line_is_cut_and_without_signs_that_steer(self):
        written = []
        line = type(LINE)()
        line._write = lambda text: bool(written.append(text)) or True
        line.show("a\x1b" + "b" * 1000)
        line.clear()
        line.clear()
        self.assertEqual(written, [f"{ERASED}a\\x1b{'b' * 74}", ERASED])

    def test_how_far_a_listing_is(self):
        listing = b"2:\n a x (1 of 2)\n b (2 of 2)\n4:\n a x:1 (2 of 2)\n c (4 of 4)\n7:\n a (2 of 2)\n"
        for size in (1, 5, 17, len(listing)):
            reached = progress.Reached()
            for at in range(0, len(listing), size):
                reached.read(listing[at : at + size])
            self.assertEqual((reached.number, reached.share()), (4, 0.875))
        self.assertEqual(progress.Reached().number, 0)
        self.assertEqual(progress.share_before([Step("a", 1, 2, 2), Step("c", 1, 4, 4)]), 0.875)
        self.assertEqual(progress.how_far(1234, 0.875, 8.0), "1,234 found, 87.5 % of the tree, ~0:01 left")
        self.assertEqual(progress.how_far(1, 0.0, 7.0), "1 found, less than 0.1 % of the tree")

    def test_the_old_command_is_gone(self):
        with open(os.path.join(PACKAGE, "pyproject.toml")) as file:
            self.assertNotIn("dlx-progress", file.read())


if __name__ == "__main__":
    unittest.main()
