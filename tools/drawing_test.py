#!/usr/bin/env python3
"""Holds the stored drawing among the samples against the shell it is made from and the rule for drawn points.

    python3 tools/drawing_test.py

A line is a point: two shares, by the 16 hexadecimal digits of their bits, and three coordinates. host/drawing.c has the
library snap the same shares.
"""

import fractions
import pathlib
import struct
import unittest

TOP = pathlib.Path(__file__).resolve().parent.parent
# The foil cutter stored its drawings at scale 0 while that stood for 16. Its own are not at hand; this one stands in for
# them, a shell of ours with a margin to cut in.
FOIL_SCALE = 16
SHELL = "shell-64.listing"


def drawing(name):
    """The shares of each point, as fractions, and its coordinates."""
    for line in (TOP / "samples" / name).read_text(encoding="ascii").splitlines():
        x, y, *coordinates = line.split("\t")
        shares = [fractions.Fraction(*struct.unpack(">d", bytes.fromhex(bits))) for bits in (x, y)]
        yield shares, [int(k) for k in coordinates]


def with_margin(name):
    """The shares of a listing's vertices, each a twentieth farther from a third. The outer vertices stay at their corners."""
    head, *vertices = [line.split("\t") for line in (TOP / "samples" / name).read_text(encoding="ascii").splitlines()]
    total = int(head[2])
    for vertex in vertices:
        b = [int(field) for field in vertex[2:]]
        shares = [k / total for k in b[:2]]
        yield shares if total in b else [share + (share - 1 / 3) / 20 for share in shares]


def nearest(step):
    """The whole number nearest to a fraction, halves to the even one."""
    below = step.numerator // step.denominator
    return min(below, below + 1, key=lambda k: (abs(k - step), k % 2))


class Foil(unittest.TestCase):
    points = list(drawing("foil-64.drawing"))

    def test_shares(self):
        self.assertEqual([shares for shares, _ in self.points], list(with_margin(SHELL)))

    def test_coordinates(self):
        self.assertEqual(len(self.points), 64)
        for shares, coordinates in self.points:
            x, y = (nearest(share * 2**FOIL_SCALE) for share in shares)
            self.assertEqual(coordinates, [x, y, 2**FOIL_SCALE - x - y])

    def test_all_kinds_of_shares(self):
        """Some are below 0, some on a step of the scale, and most between two steps."""
        steps = [share * 2**FOIL_SCALE for shares, _ in self.points for share in shares]
        self.assertTrue(any(step < 0 for step in steps))
        self.assertTrue(any(step.denominator == 1 for step in steps))
        self.assertGreater(sum(step.denominator > 1 for step in steps), 100)


if __name__ == "__main__":
    unittest.main()
