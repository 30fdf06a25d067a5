"""The examples of README.md print what stands behind them."""

import contextlib
import io
import os
import re
import unittest

from helgrothy import Problem

README = os.path.join(os.path.dirname(os.path.dirname(os.path.abspath(__file__))), "README.md")
EXAMPLE = re.compile(r"```python\n(.*?)```\n\n```\n(.*?)```\n", re.DOTALL)


class Readme(unittest.TestCase):
    def test_examples(self) -> None:
        with open(README, encoding="utf-8") as file:
            text = file.read()
        examples = EXAMPLE.findall(text)
        self.assertEqual(len(examples), text.count("```python"))
        for code, wanted in examples:
            with self.subTest(code=code):
                self.assertLessEqual(code.count("\n"), 10)
                out = io.StringIO()
                with contextlib.redirect_stdout(out):
                    exec(code, {})
                self.assertEqual(out.getvalue(), wanted)

    def test_the_data_frame(self) -> None:
        """The line for a data frame, over one that has what it uses of pandas."""

        class Frame:
            def __iter__(self):
                return iter("xyz")

            def to_numpy(self):
                return [[1, 0, 0], [0, 1, 1]]

        with open(README, encoding="utf-8") as file:
            (code,) = re.findall(r"`(Problem\(frame, .*?)`", file.read())
        problem = eval(code, {"Problem": Problem, "frame": Frame()})
        self.assertEqual([sorted(solution) for solution in problem.solve()], [[["x"], ["y", "z"]]])
