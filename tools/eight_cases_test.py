#!/usr/bin/env python3
"""Holds docs/EIGHT-CASES.md and its figure against the definition, the sample shell and the second program.

    python3 tools/eight_cases_test.py

Needs the second program built: cargo build --release --offline, in second.
"""

import pathlib
import re
import subprocess
import unittest

import draw
from eight_cases import CASES, ends, svg, terms

TOP = pathlib.Path(__file__).resolve().parent.parent
PAGE = (TOP / "docs/EIGHT-CASES.md").read_text(encoding="utf8")
DEFINITION = (TOP / "crates/definitions/specs/Directions.antt").read_text(encoding="utf8")
JOB = TOP / "samples/shell-8.job"


def tables(head):
    """The cells of each table whose head begins so."""
    for part in PAGE.split("\n\n"):
        if part.startswith(head):
            yield [[cell.strip() for cell in line.strip("|").split("|")] for line in part.splitlines()[2:]]


def told(sides, named=str):
    return [f"{named(tail)} to {named(head)}" for tail, head in sides]


class Cases(unittest.TestCase):
    def test_definition(self):
        letter = {"true": "T", "false": "F"}
        found = re.findall(r"^eight_cases b N p q r (\w+) (\w+) (\w+) = (.*)$", DEFINITION, re.MULTILINE)
        written = {"".join(map(letter.get, ways)): formula for *ways, formula in found}
        plain = lambda formula: re.sub(r"b ([012]) ([pqr])", r"b\1(\2)", formula.replace("-ℤ", "-"))
        self.assertEqual({case: plain(formula) for case, formula in written.items()}, CASES)

    def test_page(self):
        [rows] = tables("| Case | p, q |")
        self.assertEqual(rows, [[case, *told(ends(case)), formula] for case, formula in CASES.items()])

    def test_rule_to_remember(self):
        for case, formula in CASES.items():
            sides = ends(case)
            leaving = {v: [head for tail, head in sides if tail == v] for v in "pqr"}
            two, one = ([v for v in "pqr" if len(leaving[v]) == k] for k in (2, 1))
            own = {v: c for c, v in enumerate("pqr")}
            if two:
                due = [[(own[two[0]], v)] for v in (*two, *one)]
            else:
                due = [[], [(own[v], leaving[v][0]) for v in "pqr"]]
            self.assertEqual(terms(formula), due, case)
            self.assertEqual(formula.startswith("N - "), not two, case)

    def test_figure(self):
        self.assertEqual("\n".join(svg()) + "\n", (TOP / "docs/eight-cases.svg").read_text(encoding="utf8"))


class Examples(unittest.TestCase):
    def setUp(self):
        n, triangles, self.weights = draw.read_job(JOB)
        self.total, _, self.b = draw.read_listing(JOB.with_suffix(".listing"), n)
        self.mesh = draw.Mesh(n, triangles)
        self.without_rim, self.on_rim = tables("| Case | Triangle |")

    def rim(self, i, j):
        return 0 in (self.mesh.of[i, j], self.mesh.of[j, i])

    def held(self, row, on_rim):
        case, number, corners, sides, formula, numbers, weight = row
        at = dict(zip("pqr", self.mesh.corners(int(number))))
        self.assertEqual(corners, ", ".join(map(str, at.values())))
        run = [(at[tail], at[head]) for tail, head in ends(case)]
        self.assertEqual(sides, ", ".join(told(run)))
        inner = [(tail, head) for tail, head in run if not self.rim(tail, head)]
        self.assertEqual(len(inner), 2 if on_rim else 3)
        for tail, head in inner:
            self.assertEqual(self.mesh.directed(tail, head)[1:], (tail, head))
        self.assertEqual(formula, CASES[case])
        put = re.sub(r"b([012])\(([pqr])\)", lambda term: str(self.b[at[term[2]]][int(term[1])]), formula)
        self.assertEqual(numbers, put.replace("N", str(self.total)))
        first, *rest = map(int, numbers.split(" - "))
        self.assertEqual(first - sum(rest), int(weight))
        self.assertEqual(int(weight), self.weights[int(number) - 1])
        self.assertEqual(int(weight), self.mesh.weight(self.b, int(number)))

    def test_each_case_once(self):
        self.assertEqual([row[0] for row in self.without_rim], list(CASES))
        for row in self.without_rim:
            self.held(row, on_rim=False)

    def test_rim_either_way(self):
        for row, other in zip(self.on_rim[::2], self.on_rim[1::2]):
            self.assertEqual(row[1], other[1])
            self.assertNotEqual(row[0], other[0])
        for row in self.on_rim:
            self.held(row, on_rim=True)

    def test_all_triangles(self):
        shown = {int(row[1]) for row in self.without_rim + self.on_rim}
        self.assertEqual(shown, set(range(1, len(self.mesh.triangles))))

    def test_no_raise(self):
        second = TOP / "second/target/release/second"
        job = JOB.read_text()
        self.assertEqual(subprocess.run([second, "repaired"], input=job, capture_output=True, text=True, check=True).stdout, job)


if __name__ == "__main__":
    unittest.main()
