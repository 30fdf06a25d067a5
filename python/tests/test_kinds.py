"""Each kind of problem has a page with its picture, and a line in the guide that leads to it."""

import os
import unittest
import xml.etree.ElementTree as ElementTree

from helgrothy import make

DOCS = os.path.join(os.path.dirname(os.path.dirname(os.path.dirname(os.path.abspath(__file__)))), "docs")


def text(*names: str) -> str:
    with open(os.path.join(DOCS, *names), encoding="utf-8") as file:
        return file.read()


class Pages(unittest.TestCase):
    def test_each_kind_has_one(self):
        wanted = {f"{name}.{end}" for name in make.HELPS for end in ("md", "svg")}
        self.assertEqual(set(os.listdir(os.path.join(DOCS, "kinds"))), wanted)
        for name, help in make.HELPS.items():
            with self.subTest(kind=name):
                page = text("kinds", f"{name}.md")
                self.assertIn(f"\nhelgrothy {name} ", page)
                self.assertIn(f"]({name}.svg)\n", page)
                self.assertIn(f"    helgrothy.make.{name}.problem(", page)
                self.assertIn(f"| [`{name}`](kinds/{name}.md) | {help} |\n", text("GUIDE.md"))
                self.assertTrue(ElementTree.fromstring(text("kinds", f"{name}.svg")).tag.endswith("}svg"))


if __name__ == "__main__":
    unittest.main()
