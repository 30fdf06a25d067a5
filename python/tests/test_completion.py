"""Completion for shells is as the parsers of the commands have it."""

import os
import sys
import unittest

TOP = os.path.dirname(os.path.dirname(os.path.dirname(os.path.abspath(__file__))))
sys.path.append(os.path.join(TOP, "scripts"))

from completion import shells  # noqa: E402
from completion.commands import all_commands  # noqa: E402

from helgrothy.make import KINDS  # noqa: E402


class Completion(unittest.TestCase):
    def test_files_are_as_the_parsers_have_it(self):
        for name, text in shells.all_texts().items():
            with open(os.path.join(TOP, "release", f"completion.{name}"), encoding="utf-8") as file:
                self.assertEqual(file.read(), text, f"`make completion` writes {name} anew")

    def test_what_is_known(self):
        commands = {command.path: command for command in all_commands()}
        for kind in KINDS:
            self.assertIn(f"helgrothy make {kind}", commands)
            names = {name for option in commands[f"helgrothy {kind}"].options for name in option.names}
            wanted = {"--svg", "--html", "--json", "--csv", "--all", "--number", "--limit", "--seconds"}
            self.assertLessEqual(wanted | {"--shuffle", "--up-to-symmetry"}, names)
        self.assertEqual([str(place) for place in commands["dlx-span"].places], ["words 1 2 3", "words m0 m1"])
        search = commands["helgrothy search"]
        self.assertEqual([str(place) for place in search.places], ["problem"])
        names = ["--list", "--jobs", "--dask", "--seconds", "--folder", "--for", "--status", "--result", "--rows"]
        self.assertEqual([option.names for option in search.options][1:], [(name,) for name in names])
        others = {"make", "solve", "count", "draw", "lint", "export", "hint", "minimal", "why"}
        others |= {"page", "search"}
        self.assertEqual(set(commands["helgrothy"].commands), {*others, *KINDS})
        values = {option.names[-1]: option.value for option in commands["helgrothy lint"].options}
        self.assertEqual(str(values["--for"]), "words dlx1 dlx2 dlx3")


if __name__ == "__main__":
    unittest.main()
