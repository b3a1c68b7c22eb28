#!/usr/bin/env python3
"""Holds docs/OPERATING.md against the header, the samples and packmap.

    python3 tools/operating_test.py

Needs packmap proved and linked: tools/program target/bin.
"""

import os
import pathlib
import re
import subprocess
import unittest

TOP = pathlib.Path(__file__).resolve().parent.parent
PACKMAP = TOP / "target/bin/packmap"
PAGE = (TOP / "docs/OPERATING.md").read_text(encoding="utf8")
HEADER = (TOP / "host/packmap.h").read_text(encoding="utf8")
# what each slice takes for n vertices: bytes of an item, and the macro that counts items
SLICES = {
    "triangles": (2, "TRIANGLES"),
    "labels": (1, "LABELS"),
    "weights": (8, "WEIGHTS"),
    "coordinates": (8, "COORDINATES"),
    "drawn points": (8, "SHARES"),
    "scratch": (8, "SCRATCH"),
}


def table(head):
    """The cells of the table whose head begins so."""
    lines = PAGE[PAGE.index(head) :].split("\n\n")[0].splitlines()[2:]
    return [[cell.strip() for cell in line.strip("|").split("|")] for line in lines]


def packmap(text=None, **given):
    return subprocess.run([PACKMAP], input=text, stdout=subprocess.PIPE, check=True, **given).stdout


def defined(name):
    return int(re.search(rf"#define PACKMAP_{name} (\d+)", HEADER)[1])


class Refusals(unittest.TestCase):
    def test_words(self):
        numbers = dict(re.findall(r"PACKMAP_(REFUSED_\w+) = (\d+)", HEADER))
        words = dict(re.findall(r'case PACKMAP_(REFUSED_\w+):\n\s*return "(.*)";', HEADER))
        due = [[number, words[name]] for name, number in numbers.items()]
        self.assertEqual([row[:2] for row in table("| No |")], due)

    def test_every_cell_is_filled(self):
        for row in table("| No |"):
            self.assertTrue(len(row) == 5 and all(row), row)


class Jobs(unittest.TestCase):
    def shown(self, first):
        """The indented block that begins with a line."""
        block = PAGE[PAGE.index(first) :].split("\n\n")[0]
        return "".join(line.strip() + "\n" for line in block.splitlines()).encode()

    def test_sample(self):
        job, listing = (self.shown(f"    pack-map\t4{rest}") for rest in ("\n", "\t9"))
        self.assertEqual(job, (TOP / "samples/tetra.job").read_bytes())
        self.assertEqual(listing, (TOP / "samples/tetra.listing").read_bytes())
        self.assertEqual(packmap(job), listing)

    def test_longest(self):
        """The longest lines, as many as 256 vertices have."""
        lines = ["pack-map\t256"] + 508 * ["t\t255\t255\t255"] + 507 * ["w\t-2147483648"]
        length = sum(len(line) + 1 for line in lines)
        self.assertIn(f"has {length:,}.", PAGE)
        self.assertLess(length, defined("BYTES"))

    def test_cut_off(self):
        """A text that lacks its end is refused with 17 at the first line that is not there whole."""
        text = (TOP / "samples/tetra.job").read_bytes()
        for end in range(len(text)):
            line = text[:end].count(b"\n") + 1
            self.assertEqual(packmap(text[:end]), f"refused\t17\t{line}\n".encode())

    def test_failed_read(self):
        folder = os.open("/", os.O_RDONLY)
        written, closed = os.pipe()[::-1]
        os.close(closed)
        for unreadable in folder, written:
            self.assertEqual(packmap(stdin=unreadable), b"refused\t17\t1\n")
            os.close(unreadable)
        self.assertEqual(packmap(stdin=subprocess.DEVNULL), b"refused\t17\t1\n")

    def test_failed_write(self):
        with open("/dev/full", "wb") as full, open(TOP / "samples/tetra.job", "rb") as job:
            self.assertEqual(subprocess.run([PACKMAP], stdin=job, stdout=full, check=False).returncode, 0)


class Figures(unittest.TestCase):
    def test_memory(self):
        rows = table("| Slice |")
        self.assertEqual([row[0] for row in rows], list(SLICES))
        for name, _, *cells in rows:
            size, macro = SLICES[name]
            items = re.search(rf"#define PACKMAP_{macro}\(n\) (\(.*\))", HEADER)[1].replace("(size_t)(n)", "n")
            self.assertEqual(cells, [f"{size * eval(items, {'n': n}):,}" for n in (256, 4096)], name)

    def test_limits(self):
        rows = {row[0]: row[1:] for row in table("| What |")}
        least = str(defined("LEAST_VERTICES"))
        self.assertEqual(rows["vertices, in a job"], [least, f"{defined('JOB_VERTICES'):,}"])
        self.assertEqual(rows["vertices, by the calls on slices"], [least, f"{defined('MOST_VERTICES'):,}"])
        self.assertEqual(rows["bytes of a text, and of a listing"][1], f"{defined('BYTES'):,}")
        self.assertEqual(rows["sum of the weights' absolute values; a coordinate's absolute value"][1], f"{defined('LIMIT'):,}")


if __name__ == "__main__":
    unittest.main()
