#!/usr/bin/env python3
"""Draws the eight cases of the backward map (document 02, C-13) as an SVG.

    python3 tools/eight_cases.py > docs/eight-cases.svg

The corners p, q, r of a triangle have the labels 0, 1, 2. A case is told by three
letters, for the sides p-q, q-r and r-p: T where the side runs that way, F where it
runs the other way. A side has the colour of the corner that it runs to. Dots and
rings mark the corners whose coordinates are added and taken off.
"""

import re
import sys

from draw import COLOURS, arrow, pair, short

# In this order on the sheet, four to a row. In the second row the side of p and q runs the other way.
CASES = {
    "TTT": "N - b0(q) - b1(r) - b2(p)",
    "TTF": "b0(p) - b0(q)",
    "TFT": "b2(r) - b2(p)",
    "TFF": "b0(p) - b0(r)",
    "FTT": "b1(q) - b1(r)",
    "FTF": "b1(q) - b1(p)",
    "FFT": "b2(r) - b2(q)",
    "FFF": "N - b0(r) - b1(p) - b2(q)",
}
CORNERS = {"p": (45, 150), "q": (185, 150), "r": (115, 29)}
WIDE, HIGH = 230, 225  # of a cell
STYLE = """
text { font-family: "DejaVu Sans", Verdana, Arial, sans-serif; fill: #141e29; text-anchor: middle; font-size: 15px }
.formula { font-size: 14px }
.case { fill: #54697f; font-size: 13px }
.triangle { fill: #e6eff8; stroke: #54697f; stroke-width: 1.3 }
.circle { fill: #fff3d6 }
.added { fill: #141e29 }
.less { fill: #ffffff; stroke: #141e29; stroke-width: 1.6 }
"""


def ends(case):
    """Tail and head of the three sides."""
    return [side if way == "T" else side[::-1] for side, way in zip(("pq", "qr", "rp"), case)]


def terms(formula):
    """Coordinate and corner of each term but N: the ones added, and the ones taken off."""
    found = re.findall(r"(- )?b([012])\(([pqr])\)", formula)
    return [[(int(c), v) for less, c, v in found if bool(less) == taken] for taken in (False, True)]


def cell(case, formula):
    points = " ".join(pair(CORNERS[v]) for v in "pqr")
    kind = "triangle circle" if case in ("TTT", "FFF") else "triangle"
    yield f'<polygon class="{kind}" points="{points}"/>'
    for tail, head in ends(case):
        yield f'<path class="colour{"pqr".index(head)}" d="{arrow(CORNERS[tail], CORNERS[head])}"><title>{tail} to {head}</title></path>'
    for kind, marked in zip(("added", "less"), terms(formula)):
        for _, v in marked:
            x, y = map(short, CORNERS[v])
            yield f'<circle class="{kind}" cx="{x}" cy="{y}" r="5"/>'
    for v, (x, y) in CORNERS.items():
        x, y = x + {"p": -16, "q": 16, "r": 0}[v], y + {"p": 8, "q": 8, "r": -11}[v]
        yield f'<text x="{short(x)}" y="{short(y)}">{v}</text>'
    yield f'<text class="case" x="115" y="182">{case}</text>'
    yield f'<text class="formula" x="115" y="203">{formula}</text>'


def svg():
    wide, high = 4 * WIDE, 2 * HIGH
    yield f'<svg xmlns="http://www.w3.org/2000/svg" viewBox="0 0 {wide} {high}" width="{wide}" height="{high}">'
    yield "<title>The weight of a triangle by eight cases</title>"
    yield f"<style>{STYLE}{COLOURS}</style>"
    yield '<rect width="100%" height="100%" fill="#ffffff"/>'
    for k, (case, formula) in enumerate(CASES.items()):
        yield f'<g transform="translate({WIDE * (k % 4)},{HIGH * (k // 4)})">'
        yield from cell(case, formula)
        yield "</g>"
    yield "</svg>"


if __name__ == "__main__":
    sys.stdout.write("\n".join(svg()) + "\n")
