#!/usr/bin/env python3
"""Tests of draw.py: what an SVG holds, against the second program, and refusals.

    python3 tools/draw_test.py

Needs the second program built: cargo build --release --offline, in second.
"""

import pathlib
import re
import subprocess
import sys
import tempfile
import unittest
import xml.etree.ElementTree as tree

TOP = pathlib.Path(__file__).resolve().parent.parent
SECOND = TOP / "second/target/release/second"
SVG = "{http://www.w3.org/2000/svg}"
TETRA = "pack-map\t4\nt\t0\t2\t1\nt\t0\t3\t2\nt\t3\t1\t2\nt\t0\t1\t3\nw\t5\nw\t3\nw\t-1\n"
REPAIRED = "pack-map\t4\t9\t1\nv\t0\t9\t0\t0\nv\t1\t0\t9\t0\nv\t2\t0\t0\t9\nv\t3\t3\t5\t1\n"
AS_GIVEN = "pack-map\t4\t7\t0\nv\t0\t7\t0\t0\nv\t1\t0\t7\t0\nv\t2\t0\t0\t7\nv\t3\t3\t5\t-1\n"


def second(*words, text=""):
    done = subprocess.run([SECOND, *map(str, words)], input=text, capture_output=True, text=True, check=True)
    return done.stdout


def weights(job):
    return [int(word) for word in re.findall(r"^w\t(.*)$", job, re.MULTILINE)]


def moved(job, start, end):
    """The job with the triangle at one place moved to another; all else keeps its order."""
    lines = job.splitlines(keepends=True)
    lines.insert(1 + end, lines.pop(1 + start))
    return "".join(lines)


class Drawn:
    """What an SVG shows: the triangles by number with their classes, and the vertices."""

    def __init__(self, svg):
        root = tree.fromstring(svg)
        polygons = [p for p in root.iter(SVG + "polygon") if p.get("class") != "rim"]
        self.rims = [p for p in root.iter(SVG + "polygon") if p.get("class") == "rim"]
        self.kinds = {}
        for p in polygons:
            number = int(re.match(r"triangle (\d+):", p.findtext(SVG + "title"))[1])
            assert number not in self.kinds
            self.kinds[number] = p.get("class").split()
        titles = [g.findtext(SVG + "title") for g in root.iter(SVG + "g")]
        self.vertices = [list(map(int, re.findall(r"-?\d+", title))) for title in titles]
        self.words = [text.text for text in root.iter(SVG + "text")]

    def of(self, kind):
        return {t for t, kinds in self.kinds.items() if kind in kinds}


class Drawing(unittest.TestCase):
    def setUp(self):
        folder = tempfile.TemporaryDirectory()
        self.addCleanup(folder.cleanup)
        self.folder = pathlib.Path(folder.name)

    def draw(self, job, listing, *words):
        for name, text in ("job", job), ("listing", listing):
            (self.folder / name).write_bytes(text if isinstance(text, bytes) else text.encode())
        command = [sys.executable, TOP / "tools/draw.py", self.folder / "job", self.folder / "listing", *words]
        return subprocess.run(command, capture_output=True, text=True, check=False)

    def drawn(self, job, listing):
        done = self.draw(job, listing)
        self.assertEqual((done.returncode, done.stderr), (0, ""))
        return Drawn(done.stdout)

    def refused(self, job, listing, word):
        done = self.draw(job, listing)
        self.assertEqual((done.returncode, done.stdout), (1, ""), word)
        self.assertRegex(done.stderr, rf"\Adraw: [^\n]*{word}[^\n]*\n\Z")

    def test_random_jobs(self):
        for n in 3, 4, 5, 9, 64, 256:
            for kind in "unit", "zero", "signed", "spike", "negative", "balanced", "wide":
                with self.subTest(n=n, kind=kind):
                    job = second("sphere", n, n, kind)
                    listing = second("job", text=job)
                    if listing.startswith("refused"):
                        self.refused(job, listing, "refused")
                        continue
                    drawn = self.drawn(job, listing)
                    pairs = zip(weights(job), weights(second("repaired", text=job)))
                    raised = {t for t, (before, after) in enumerate(pairs, 1) if before != after}
                    self.assertEqual(set(drawn.kinds), set(range(1, 2 * n - 4)))
                    self.assertEqual(drawn.of("raised"), raised)
                    self.assertEqual(drawn.of("wrong"), set())
                    self.assertEqual(len(drawn.rims), 1)
                    rows = [list(map(int, line.split("\t")[1:])) for line in listing.splitlines()[1:]]
                    self.assertEqual(drawn.vertices, rows)

    def test_numbers_that_fit(self):
        job = second("sphere", 9, 1, "unit")
        words = self.drawn(job, second("job", text=job)).words
        shown = {int(word.split(" = ")[-1]) for word in words if re.fullmatch(r"(v[012] = )?\d+", word)}
        self.assertEqual(shown, set(range(9)))

    def test_turned_and_flat(self):
        drawn = self.drawn(TETRA, AS_GIVEN)
        self.assertEqual(drawn.of("wrong"), {3})
        self.assertIn("FLAT OR TURNED: 1 triangle", drawn.words)
        flat = AS_GIVEN.replace("7", "8").replace("-1", "0")
        drawn = self.drawn(TETRA.replace("w\t-1", "w\t0"), flat)
        self.assertEqual(drawn.of("wrong"), {3})

    def test_samples(self):
        for name, words in ("shell-64", []), ("shell-8", ["--labels"]):
            job, listing, svg = ((TOP / "samples" / f"{name}.{kind}").read_text() for kind in ("job", "listing", "svg"))
            self.assertEqual(second("job", text=job), listing)
            self.assertEqual(self.draw(job, listing, *words).stdout, svg)

    def test_sample_opened_elsewhere(self):
        job = (TOP / "samples/shell-8.job").read_text()
        listing, svg = ((TOP / "samples" / f"shell-8-at-4.{kind}").read_text() for kind in ("listing", "svg"))
        self.assertEqual(second("job", text=moved(job, 4, 0)), listing)
        self.assertEqual(self.draw(job, listing, "--labels", "--outer", "4").stdout, svg)

    def test_outer(self):
        """An outer triangle at another place, and another triangle as the outer one, draw as it does in front."""
        for n in 3, 4, 9, 64:
            job = second("sphere", n, n, "signed")
            drawn = self.draw(job, second("job", text=job)).stdout
            for outer in {0, 1, n - 2, 2 * n - 5}:
                with self.subTest(n=n, outer=outer):
                    done = self.draw(moved(job, 0, outer), second("job", text=job), "--outer", str(outer))
                    self.assertEqual((done.stdout, done.stderr), (drawn, ""))
                    front = moved(job, outer, 0)
                    listing = second("job", text=front)
                    done = self.draw(job, listing, "--outer", str(outer), "--labels")
                    self.assertEqual((done.stdout, done.stderr), (self.draw(front, listing, "--labels").stdout, ""))
                    corners = re.findall(r">v[012] = (\d+)<", done.stdout)
                    rim = job.splitlines()[1 + outer].split("\t")[1:]
                    self.assertEqual(sorted(corners), sorted(rim))

    def test_no_outer(self):
        for outer in 4, 5, -1, 2**64:
            done = self.draw(TETRA, REPAIRED, f"--outer={outer}")
            self.assertEqual((done.returncode, done.stdout), (1, ""))
            self.assertRegex(done.stderr, rf"\Adraw: [^\n]* no triangle has the outer number {outer}, there are 4\n\Z")
        # the listing is of another rim
        done = self.draw(TETRA, REPAIRED, "--outer", "3")
        self.assertEqual((done.returncode, done.stdout), (1, ""))
        self.assertRegex(done.stderr, "off its corner")

    def test_arrows(self):
        """Every inner side once, and from each inner vertex one side of each colour."""
        for n in 3, 4, 9, 64, 256:
            job = second("sphere", n, n, "unit")
            done = self.draw(job, second("job", text=job), "--labels")
            arrows = re.findall(r'class="colour(.)" .*?<title>side (\d+) to (\d+), colour (.)<', done.stdout)
            triangles = [line.split("\t")[1:] for line in job.splitlines() if line.startswith("t")]
            rim = triangles[0]
            inner = {frozenset(pair) for a, b, c in triangles for pair in ((a, b), (b, c), (c, a)) if not set(pair) <= set(rim)}
            self.assertEqual(len(arrows), len(inner))
            self.assertEqual({frozenset((tail, head)) for _, tail, head, _ in arrows}, inner)
            leaving = sorted((tail, colour) for kind, tail, _, colour in arrows if kind == colour)
            self.assertEqual(leaving, sorted((str(v), c) for v in range(n) if str(v) not in rim for c in "012"))

    def test_corner_labels(self):
        job = second("sphere", 5, 1, "unit")
        words = self.draw(job, second("job", text=job), "--labels").stdout
        self.assertEqual([words.count(f'class="number label{c}"') for c in range(3)], [5, 5, 5])

    def test_output_file(self):
        out = self.folder / "out.svg"
        done = self.draw(TETRA, REPAIRED, "-o", out)
        self.assertEqual((done.returncode, done.stdout, done.stderr), (0, "", ""))
        self.assertEqual(out.read_text(), self.draw(TETRA, REPAIRED).stdout)
        done = self.draw(TETRA, REPAIRED, "-o", self.folder / "none/out.svg")
        self.assertEqual((done.returncode, done.stderr.count("\n")), (1, 1))

    def test_malformed_jobs(self):
        for job, word in [
            ("", "no lines"),
            (TETRA[:-1], "line 8 lacks its LF"),
            (TETRA + "w\t1\n", "line 9 is one too many"),
            (TETRA[: TETRA.rindex("w")], "line 8 is missing"),
            (TETRA.replace("w\t3", "w\t03"), "line 7"),
            (TETRA.replace("w\t3", "w\t-0"), "line 7"),
            (TETRA.replace("w\t3", "w\t" + "9" * 5000), "line 7"),
            (TETRA.replace("\t", " "), "line 1"),
            (TETRA.replace("pack-map\t4", "pack-map\t257"), "n = 257"),
            (TETRA.replace("t\t0\t3\t2", "t\t0\t4\t2"), "none of 4 vertices"),
            (TETRA.replace("t\t0\t3\t2", "t\t0\t0\t2"), "none of 4 vertices"),
            (TETRA.replace("t\t0\t3\t2", "t\t0\t2\t1"), "occurs twice"),
            (TETRA.replace("t\t0\t3\t2", "t\t3\t0\t2"), "occurs twice"),
            (TETRA.encode() + b"\xff\n", "not ASCII"),
        ]:
            with self.subTest(word=word):
                self.refused(job, REPAIRED, word)
        for number in 1, 3, 4, 5, 6, 7, 8, 17:
            with self.subTest(number=number):
                self.refused(second("damaged", number, 1), REPAIRED, "")

    def test_no_spheres(self):
        # Two bipyramids that share their tips, and a tetrahedron beside a torus.
        ring = lambda a, b, c: [(a, b, 3), (b, c, 3), (c, a, 3), (b, a, 4), (c, b, 4), (a, c, 4)]
        pinched = ring(0, 1, 2) + ring(5, 6, 7)
        tetra = [(0, 2, 1), (0, 3, 2), (3, 1, 2), (0, 1, 3)]
        torus = [(4 + i, 4 + (i + 1) % 7, 4 + (i + 3) % 7) for i in range(7)]
        torus += [(4 + i, 4 + (i + 3) % 7, 4 + (i + 2) % 7) for i in range(7)]
        for n, triangles in (8, pinched), (11, tetra + torus):
            job = f"pack-map\t{n}\n" + "".join("t\t{}\t{}\t{}\n".format(*t) for t in triangles)
            job += "w\t1\n" * (2 * n - 5)
            listing = f"pack-map\t{n}\t1\t0\n" + "".join(f"v\t{v}\t1\t0\t0\n" for v in range(n))
            self.refused(job, listing, "no sphere")

    def test_malformed_listings(self):
        for listing, word in [
            ("refused\t9\t0\n", "refused"),
            (REPAIRED.replace("pack-map\t4", "pack-map\t5"), "n = 5"),
            (REPAIRED.replace("v\t3", "v\t2"), "not vertex 3"),
            (REPAIRED.replace("3\t5\t1", "3\t5\t2"), "do not sum to N = 9"),
            (REPAIRED.replace("v\t0\t9\t0\t0", "v\t0\t8\t1\t0"), "off its corner"),
            (REPAIRED.replace("3\t5\t1", "9000000000\t0\t-8999999991"), "beyond"),
            (REPAIRED.replace("\t9\t1\n", "\t9\t2\n"), "2 raises told, but 1"),
            (REPAIRED.replace("3\t5\t1", "5\t3\t1"), "below the one in"),
            (REPAIRED.replace("9", "0").replace("3\t5\t1", "1\t-1\t0"), "N = 0, but"),
            (REPAIRED.replace("9", "-9").replace("3\t5\t1", "-3\t-5\t-1"), "N = -9, but"),
            (REPAIRED + "v\t4\t9\t0\t0\n", "one too many"),
        ]:
            with self.subTest(word=word):
                self.refused(TETRA, listing, word)

    def test_missing_file(self):
        command = [sys.executable, TOP / "tools/draw.py", self.folder / "none", self.folder / "none"]
        done = subprocess.run(command, capture_output=True, text=True, check=False)
        self.assertEqual((done.returncode, done.stdout, done.stderr.count("\n")), (1, "", 1))


if __name__ == "__main__":
    unittest.main()
