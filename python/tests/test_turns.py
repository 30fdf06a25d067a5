"""The turns and mirror images of boards, boxes and pieces are as many as are known."""

import itertools
import unittest

from helgrothy.draw._turns import images, motions, symmetries

SOMA = [
    [(0, 0, 0), (0, 0, 1), (0, 1, 0)],
    [(0, 0, 0), (0, 0, 1), (0, 0, 2), (0, 1, 0)],
    [(0, 0, 0), (0, 0, 1), (0, 0, 2), (0, 1, 1)],
    [(0, 0, 0), (0, 0, 1), (0, 1, 1), (0, 1, 2)],
    [(0, 0, 0), (0, 0, 1), (0, 1, 1), (1, 0, 0)],
    [(0, 0, 0), (0, 0, 1), (0, 1, 1), (1, 1, 1)],
    [(0, 0, 0), (0, 0, 1), (0, 1, 0), (1, 0, 0)],
]


def box(*sides):
    return list(itertools.product(*map(range, sides)))


class Turns(unittest.TestCase):
    def test_motions(self):
        for dimensions, turns in ((1, 1), (2, 4), (3, 24), (4, 192)):
            self.assertEqual(len(set(motions(dimensions))), 2 * turns)
            self.assertEqual(len(set(motions(dimensions, mirrors=False))), turns)
            cell = tuple(range(1, dimensions + 1))
            self.assertEqual(motions(dimensions)[0].of(cell), cell)
        quarter = next(motion for motion in motions(2, mirrors=False) if motion.of((0, 1)) == (1, 0))
        self.assertEqual([quarter.of(at) for at in ((1, 0), (0, -1), (-1, 0))], [(0, -1), (-1, 0), (0, 1)])

    def test_symmetries(self):
        for sides, mirrored, turned in (
            ((8, 8), 8, 4), ((6, 10), 4, 2), ((1, 5), 2, 2), ((1, 1), 1, 1), ((7,), 2, 1),
            ((3, 3, 3), 48, 24), ((2, 3, 4), 8, 4), ((2, 2, 5), 16, 8), ((1, 4, 4), 8, 8), ((1, 1, 3), 2, 2),
        ):  # fmt: skip
            with self.subTest(sides=sides):
                found = symmetries(box(*sides))
                self.assertEqual((len(found), len(symmetries(box(*sides), mirrors=False))), (mirrored, turned))
                self.assertEqual(found[0], {cell: cell for cell in box(*sides)})
                for symmetry in found:
                    self.assertEqual(sorted(symmetry.values()), box(*sides))
        self.assertEqual(symmetries([]), [{}])
        # An L has none but that of no change, unless it may be mirrored.
        self.assertEqual(len(symmetries([(5, 5), (6, 5), (7, 5), (7, 6)])), 1)
        self.assertEqual(len(symmetries([(5, 5), (6, 5), (6, 6)])), 2)

    def test_images(self):
        # Of the Soma pieces: 12, 24, 12, 12, 12, 12 and 8, as many as a solid piece has.
        self.assertEqual([len(images(piece, mirrors=False)) for piece in SOMA], [12, 24, 12, 12, 12, 12, 8])
        # The two screws are mirror images of each other.
        self.assertEqual([len(images(piece)) for piece in SOMA], [12, 24, 12, 12, 24, 24, 8])
        self.assertEqual(images(SOMA[4]), images(SOMA[5]))
        self.assertEqual(len(images([(0, 0), (0, 1), (0, 2), (1, 0)])), 8)
        self.assertEqual(images([(3, 3), (3, 4)]), [frozenset({(0, 0), (0, 1)}), frozenset({(0, 0), (1, 0)})])
