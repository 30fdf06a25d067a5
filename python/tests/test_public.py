"""What the package shows of itself: its names, to people, to completion and to checkers of types."""

import ast
import os
import pydoc
import re
import rlcompleter
import subprocess
import sys
import unittest

import helgrothy
from helgrothy import make

PACKAGE = os.path.dirname(os.path.abspath(helgrothy.__file__))
MODULES = {"answers", "cost", "data", "draw", "engines", "export", "given", "graphs", "hint", "lint", "make", "minimal", "shuffle", "symmetry", "table", "why", "wishes"}


def fresh(code: str) -> "list[str]":
    """The words that a Python of its own prints, which has loaded nothing of the package."""
    how = {"env": {**os.environ, "PYTHONPATH": os.path.dirname(PACKAGE)}, "text": True, "check": True}
    return subprocess.run([sys.executable, "-c", code], stdout=subprocess.PIPE, **how).stdout.split()


class Names(unittest.TestCase):
    def test_they_are_shown(self):
        public = sorted(helgrothy.__all__)
        self.assertEqual(sorted(name for name in dir(helgrothy) if not name.startswith("_")), public)
        shown = fresh("import helgrothy; print(*dir(helgrothy))")
        self.assertEqual(sorted(name for name in shown if not name.startswith("_")), public)
        self.assertIn("__version__", shown)
        completed = rlcompleter.Completer({"helgrothy": helgrothy}).attr_matches("helgrothy.")
        self.assertEqual(sorted(word.partition(".")[2].strip("(") for word in completed), public)
        help_of_all = pydoc.plain(pydoc.render_doc(helgrothy))
        classes = {name for name in public if isinstance(getattr(helgrothy, name), type)}
        self.assertEqual(set(re.findall(r"^    class (\w+)", help_of_all, re.MULTILINE)), classes)
        self.assertNotIn("FUNCTIONS", help_of_all)
        # Python itself lists the modules of a package; nothing else in the help names one with an underscore.
        contents = help_of_all.partition("PACKAGE CONTENTS\n")[2].partition("\n\n")[0]
        self.assertNotRegex(help_of_all.replace(contents, ""), r"\bhelgrothy\._|\n +_[a-z]\w*( |\n)")

    def test_they_are_there(self):
        for name in helgrothy.__all__:
            value = getattr(helgrothy, name)
            self.assertEqual(getattr(value, "__name__", ""), f"helgrothy.{name}" if name in MODULES else name)
        self.assertLess(MODULES, set(helgrothy.__all__))
        code = "import helgrothy as hg; print(hg.make.queens.problem(6).count(), hg.draw.Pattern.__name__, hg.cost.least.__name__)"
        self.assertEqual(fresh(code), ["4", "Pattern", "least"])
        self.assertEqual(fresh("from helgrothy import *; print(make.__name__, Problem.__name__)"), ["helgrothy.make", "Problem"])
        for wrong in ("Any", "problems", "console"):
            with self.assertRaisesRegex(AttributeError, f"module 'helgrothy' has no attribute '{wrong}'"):
                helgrothy._load(wrong)

    def test_modules_without_an_underscore_are_public(self):
        # The classes are in the last two of the first package.
        for package, public in ((helgrothy, MODULES | {"problem", "errors"}), (make, set(make.KINDS)), (helgrothy.draw, set())):
            contents = pydoc.plain(pydoc.render_doc(package)).partition("PACKAGE CONTENTS\n")[2].partition("\n\n")[0]
            listed = re.findall(r"^    (\w+)", contents, re.MULTILINE)
            self.assertGreater(len(listed), len(public))
            self.assertEqual({name for name in listed if name[0] != "_"}, public)

    def test_nothing_is_loaded_before_it_is_used(self):
        code = "import sys, helgrothy; dir(helgrothy); print(*(name for name in sys.modules if 'helgrothy' in name))"
        self.assertEqual(sorted(fresh(code)), ["helgrothy", "helgrothy._alone"])

    def test_checkers_of_types_know_them(self):
        with open(os.path.join(PACKAGE, "__init__.py"), encoding="utf-8") as file:
            tree = ast.parse(file.read())
        (block,) = (it for it in tree.body if isinstance(it, ast.If) and isinstance(it.test, ast.Name))
        named = [it.name for part in block.body if isinstance(part, ast.ImportFrom) for it in part.names]
        self.assertEqual(sorted(named), sorted(helgrothy.__all__))


class Help(unittest.TestCase):
    def test_a_problem(self):
        shown = help_of(helgrothy.Problem)
        for name, kind in helgrothy.Problem.__annotations__.items():
            self.assertIn(f"\n    {name}: {kind}\n", shown)
        self.assertEqual(set(helgrothy.Problem.__annotations__), {"items", "secondary", "options", "comments", "pattern"})
        public = {name for name in dir(helgrothy.Problem) if not name.startswith("_")}
        self.assertFalse(public & {"wire", "of", "pairs", "uses", "of_options", "lines"})
        self.assertLess({"add_option", "check", "count", "draw", "listed", "parse", "solve"}, public)

    def test_the_kinds(self):
        shown = help_of(make)
        for kind in make.KINDS:
            self.assertRegex(shown.partition("PACKAGE CONTENTS")[0], rf"\n +{kind} +\w")
        self.assertNotIn("CLASSES", shown)

    def test_kinds_show_their_calls(self):
        for kind in make.KINDS:
            calls = {"few", "problem"} if kind == "tests" else {"problem"}
            module = getattr(make, kind)
            self.assertEqual({name for name in dir(module) if not name.startswith("_")}, calls, kind)
            completed = rlcompleter.Completer({"make": make}).attr_matches(f"make.{kind}.")
            self.assertEqual({word.rpartition(".")[2].rstrip("()") for word in completed}, calls, kind)
            shown = help_of(module)
            self.assertEqual(set(re.findall(r"^    (\w+)\(", shown, re.MULTILINE)), calls, kind)
            self.assertEqual({name for name in ("CLASSES", "DATA") if f"\n{name}\n" in shown}, set(), kind)
        # Also where one is imported by itself.
        code = "import helgrothy.make.sudoku as sudoku; from helgrothy.make.tests import *; print(*dir(sudoku), few.__name__)"
        self.assertEqual(fresh(code), ["problem", "few"])

    def test_modules_show_what_is_for_callers(self):
        for name in MODULES:
            module = getattr(helgrothy, name)
            self.assertEqual([one for one in module.__all__ if not hasattr(module, one)], [])
            shown = help_of(module)
            for inside in ("order(", "class Shades", "check_size(", "by_patterns(", "clauses(", "listing("):
                self.assertNotIn(f"\n    {inside}", shown)


def help_of(thing: object) -> str:
    return pydoc.plain(pydoc.render_doc(thing)).replace(" |  ", "")


if __name__ == "__main__":
    unittest.main()
