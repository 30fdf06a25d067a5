"""How many modules the commands load before they do anything: what a loop over files waits for each time."""

import os
import subprocess
import sys
import unittest

import helgrothy
from helgrothy._cli import commands
from helgrothy._cli.commands import parser_of_all
from helgrothy.make import HELPS, KINDS

PACKAGE = os.path.dirname(os.path.dirname(os.path.abspath(helgrothy.__file__)))
SCRIPT = """\
import sys
sys.path.insert(0, sys.argv.pop(1))
before = set(sys.modules)
from helgrothy.__main__ import main
try:
    main()
except SystemExit as end:
    assert end.code == 0, end.code
sys.stderr.write(" ".join(set(sys.modules) - before))
"""
# Of Python and the package: for a command's help, for a list of commands or kinds, for one that solves, for a page.
MOST, LISTS, SOLVES, PAGES = 120, 90, 140, 160
# What no short command waits for.
SLOW = ("csv", "difflib", "fractions", "html", "json")


def loaded(*words):
    """The modules that Python loads for a command, beside those that it begins with."""
    command = [sys.executable, "-I", "-S", "-c", SCRIPT, PACKAGE, *words]
    done = subprocess.run(command, stdout=subprocess.DEVNULL, stderr=subprocess.PIPE, text=True)
    assert done.returncode == 0, done.stderr
    return done.stderr.split()


class Startup(unittest.TestCase):
    def test_help_and_version_load_few_modules(self):
        parsers = parser_of_all()._subparsers._group_actions[0].choices
        self.assertLessEqual({"solve", "page", "search", "sudoku"}, set(parsers))
        every = [f"{name} --help" for name in parsers]
        lists = ["--version", "--help", "make --help", "hint --help", "minimal --help"]
        for words in [*lists, "make queens --help", *every]:
            with self.subTest(words=words):
                modules = loaded(*words.split())
                self.assertLess(len(modules), LISTS if words in lists else MOST)
                self.assertNotIn("helgrothy._cli.acts", modules)
                if words.partition(" ")[0] in KINDS:
                    self.assertEqual([name for name in SLOW if name in modules], [])
                if words in lists:
                    self.assertNotIn("helgrothy.make._kind", modules)

    def test_lists_are_those_of_the_parsers(self):
        """What is printed without loading a module agrees with it."""
        self.assertEqual(HELPS, {name: kind.help for name, kind in KINDS.items()})
        whole, listed = parser_of_all(), commands._parser(["--help"])
        helps = [[(it.dest, it.help) for it in one._subparsers._group_actions[0]._choices_actions] for one in (whole, listed)]
        self.assertEqual(sorted(helps[0]), sorted(helps[1]))
        self.assertEqual(whole.format_usage(), listed.format_usage())
        for words in (["make"], ["hint"], ["minimal"]):
            helps = []
            for parser in (parser_of_all(), commands._parser([*words, "--help"])):
                below = parser._subparsers._group_actions[0].choices[words[0]]
                helps.append(below.format_help())
            self.assertEqual(helps[0], helps[1])

    def test_what_solves(self):
        for words in ("queens 4", "sudoku 1234341221434321", "hint queens 6", "make queens 4"):
            modules = loaded(*words.split())
            self.assertLess(len(modules), SOLVES)
            self.assertEqual([name for name in SLOW if name in modules], [])

    def test_what_draws(self):
        """A picture waits for no table of signs, and a page for nothing that is for addresses."""
        for words, most in (("queens 4 --svg", SOLVES), ("queens 4 --html", PAGES)):
            modules = loaded(*words.split())
            self.assertLess(len(modules), most)
            self.assertEqual([name for name in ("html", "pathlib", "string", "urllib.parse") if name in modules], [])

    def test_what_only_other_commands_need(self):
        for words in ("solve --help", "lint --help", "why --help", "draw --help"):
            modules = loaded(*words.split())
            self.assertEqual([name for name in ("helgrothy.problem", "helgrothy._spans", "dataclasses", "json") if name in modules], [])
        queens = loaded("make", "queens", "4")
        self.assertEqual([name for name in ("helgrothy.make.sudoku", "helgrothy.why", "helgrothy._page") if name in queens], [])


if __name__ == "__main__":
    unittest.main()
