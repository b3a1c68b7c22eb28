#!/usr/bin/env python3
"""Draws a job text and its listing as an SVG.

    python3 tools/draw.py JOB LISTING > out.svg
    python3 tools/draw.py JOB LISTING -o out.svg
    python3 tools/draw.py --labels JOB LISTING > out.svg
    python3 tools/draw.py --outer PLACE JOB LISTING > out.svg

The drawing has one polygon for each inner triangle, the sides, the rim, and the
vertices by number. Triangles that repair has raised are marked, and so are flat
and turned ones, which no listing of packmap has. Where a number does not fit,
the vertex is a dot; pointing at a vertex or a triangle tells all about it.
With --labels each inner side has an arrow too, in its colour and towards where
it runs, and each corner its label.

With --outer the outer triangle is not the first of the job's list but the one at
that place, counted from 0. The drawing is then of the list with that triangle
moved to the front: the job's weights belong to the others in listed order, and
the listing has to be one of that rim, as the calls on a mesh give it.

Raised triangles are those whose weight in the job differs from the weight that
the listing's coordinates stand for, by the backward map of document 01. All of
that is exact; only places on the sheet are rounded. Input that is malformed or
does not fit together is told in one line, with exit 1; so is N below 1, which no
listing has. Python's standard library alone.
"""

import argparse
import math
import re
import sys

LIMIT = 1073741823  # L of document 01
NUMBER = re.compile(r"0|-?[1-9][0-9]{0,9}")


class Malformed(Exception):
    """What is wrong with the input, in one line."""


def plural(count, noun):
    return f"{count} {noun}{'s' * (count != 1)}"


# --- Texts -----------------------------------------------------------------


def fields(path):
    """Lines of a text as lists of fields; each line ends in LF."""
    try:
        with open(path, encoding="ascii", newline="") as file:
            text = file.read()
    except OSError as error:
        raise Malformed(f"{path}: {error.strerror}") from None
    except UnicodeDecodeError:
        raise Malformed(f"{path}: a byte that is not ASCII") from None
    *lines, rest = text.split("\n")
    if rest:
        raise Malformed(f"{path}: line {len(lines) + 1} lacks its LF")
    if not lines:
        raise Malformed(f"{path}: no lines")
    return [line.split("\t") for line in lines]


class Reader:
    """Lines of a text in turn, each an opening and whole numbers."""

    def __init__(self, path):
        self.path, self.lines, self.at = path, fields(path), 0

    def numbers(self, opening, count):
        self.at += 1
        if self.at > len(self.lines):
            raise Malformed(f"{self.path}: line {self.at} is missing")
        first, *rest = self.lines[self.at - 1]
        if first != opening or len(rest) != count or not all(map(NUMBER.fullmatch, rest)):
            raise Malformed(f"{self.path}: line {self.at} is not '{opening}' and {plural(count, 'whole number')}")
        return [int(word) for word in rest]

    def end(self):
        if self.at < len(self.lines):
            raise Malformed(f"{self.path}: line {self.at + 1} is one too many")


def read_job(path):
    """n, the triangles as listed and the weights."""
    reader = Reader(path)
    [n] = reader.numbers("pack-map", 1)
    if not 3 <= n <= 256:
        raise Malformed(f"{path}: n = {n} is not within 3..256")
    triangles = [tuple(reader.numbers("t", 3)) for _ in range(2 * n - 4)]
    weights = [reader.numbers("w", 1)[0] for _ in range(2 * n - 5)]
    reader.end()
    return n, triangles, weights


def read_listing(path, n):
    """N, the count of raises, and b0, b1, b2 of each vertex."""
    reader = Reader(path)
    if reader.lines[0][0] == "refused":
        raise Malformed(f"{path}: the job was refused ({' '.join(reader.lines[0])})")
    listed, total, raises = reader.numbers("pack-map", 3)
    if listed != n:
        raise Malformed(f"{path}: n = {listed}, but the job has n = {n}")
    b = []
    for v in range(n):
        number, *place = reader.numbers("v", 4)
        if number != v:
            raise Malformed(f"{path}: line {reader.at} is not vertex {v}")
        if sum(place) != total:
            raise Malformed(f"{path}: the coordinates of vertex {v} do not sum to N = {total}")
        b.append(place)
    reader.end()
    if any(abs(x) > LIMIT for place in b for x in place):
        raise Malformed(f"{path}: a coordinate is beyond -{LIMIT}..{LIMIT}")
    if total < 1:
        raise Malformed(f"{path}: N = {total}, but a listing has N of 1 or more")
    return total, raises, b


# --- Document 01: labels, backward map, areas --------------------------------


class Mesh:
    """An accepted mesh with its labels. Triangle 0 is the outer one."""

    def __init__(self, n, triangles):
        self.n, self.triangles = n, triangles
        self.rim = triangles[0][0], triangles[0][2], triangles[0][1]
        self.of = {}  # triangle by directed side
        for t, corners in enumerate(triangles):
            if len(set(corners)) < 3 or not all(0 <= v < n for v in corners):
                raise Malformed(f"triangle {t} {corners} is none of {n} vertices")
            for side in sides(corners):
                if side in self.of:
                    raise Malformed("side {} to {} occurs twice".format(*side))
                self.of[side] = t
        for i, j in self.of:
            if (j, i) not in self.of:
                raise Malformed(f"side {i} to {j} lacks its opposite")
        self.beside = [set() for _ in range(n)]
        for i, j in self.of:
            self.beside[i].add(j)
        self.label = [{} for _ in triangles]  # for each triangle, by vertex
        self.label[0] = {v: c for c, v in enumerate(self.rim)}
        self.peel()
        if any(len(labels) < 3 for labels in self.label):
            raise Malformed("the triangles are no sphere")

    def third(self, i, j):
        """The third vertex of the triangle that has side i to j."""
        return next(v for v in self.triangles[self.of[i, j]] if v not in (i, j))

    def peel(self):
        """Labels all inner corners: the frontier loses its least free vertex."""
        v0, v1, v2 = self.rim
        frontier = [v0, v2, v1]
        while len(frontier) > 2:
            on = set(frontier)
            free = [v for v in frontier[1:-1] if len(self.beside[v] & on) == 2]
            if not free:
                raise Malformed("the triangles are no sphere")
            v = min(free)
            at = frontier.index(v)
            fan = [frontier[at - 1]]
            while fan[-1] != frontier[at + 1]:
                u, w = fan[-1], self.third(v, fan[-1])
                labels = self.label[self.of[v, u]]
                if labels:
                    raise Malformed("the triangles are no sphere")
                labels.update({v: 2, u: 0, w: 1})
                fan.append(w)
            frontier[at : at + 1] = fan[1:-1]

    def corners(self, t):
        """Vertices of triangle t labelled 0, 1, 2."""
        return sorted(self.triangles[t], key=self.label[t].get)

    def directed(self, i, j):
        """Colour, tail and head of the side joining i and j; of a rim side, towards j."""
        for tail, head in (i, j), (j, i):
            colour = self.label[self.of[i, j]][head]
            if colour == self.label[self.of[j, i]][head]:
                return colour, tail, head
        raise Malformed("the triangles are no sphere")

    def slope(self, b, i, j):
        """s of the side joining i and j."""
        colour, tail, head = self.directed(i, j)
        return (b[tail][1] - b[head][1], b[tail][0] - b[head][0], 0)[colour]

    def weight(self, b, t):
        """The weight of triangle t by the backward map."""
        p, q, r = self.corners(t)
        return self.slope(b, p, q) - self.slope(b, q, r) - self.slope(b, r, p)

    def area(self, b, t):
        """The area number of triangle t."""
        p, q, r = (b[v] for v in self.corners(t))
        return (q[0] - p[0]) * (r[1] - p[1]) - (q[1] - p[1]) * (r[0] - p[0])


def sides(corners):
    a, b, c = corners
    return (a, b), (b, c), (c, a)


class Map:
    """A mesh, its outer triangle moved to the front, its drawing, and what is to be marked."""

    def __init__(self, job, listing, outer=0):
        n, triangles, weights = read_job(job)
        if not 0 <= outer < len(triangles):
            raise Malformed(f"{job}: no triangle has the outer number {outer}, there are {len(triangles)}")
        triangles.insert(0, triangles.pop(outer))
        self.total, raises, self.b = read_listing(listing, n)
        try:
            self.mesh = Mesh(n, triangles)
        except Malformed as error:
            raise Malformed(f"{job}: {error}") from None
        for c, v in enumerate(self.mesh.rim):
            if self.b[v][c] != self.total or any(self.b[v][d] for d in range(3) if d != c):
                raise Malformed(f"{listing}: outer vertex {v} is off its corner")
        inner = range(1, len(triangles))
        self.lent = dict(zip(inner, weights))
        self.weight = {t: self.mesh.weight(self.b, t) for t in inner}
        self.raised = {t for t in inner if self.weight[t] != self.lent[t]}
        if any(self.weight[t] < self.lent[t] for t in inner):
            raise Malformed(f"{listing}: a weight is below the one in {job}")
        if len(self.raised) != raises:
            raise Malformed(f"{listing}: {plural(raises, 'raise')} told, but {len(self.raised)} weights differ from {job}")
        self.area = {t: self.mesh.area(self.b, t) for t in inner}
        self.wrong = {t for t in inner if self.area[t] <= 0}


# --- The sheet ---------------------------------------------------------------

MARGIN = 70
STYLE = """
text { font-family: "DejaVu Sans", Verdana, Arial, sans-serif; fill: #141e29 }
.number { text-anchor: middle }
.beside { paint-order: stroke; stroke: #ffffff; stroke-opacity: .8; stroke-linejoin: round }
.plain { fill: #e6eff8 }
.raised { fill: #ffc14d }
.wrong { fill: url(#warning); fill-opacity: .8; stroke: #d0003a; stroke-width: 2.4; stroke-linejoin: round }
.side { stroke: #54697f; stroke-linecap: round }
.rim { fill: none; stroke: #141e29; stroke-width: 3; stroke-linejoin: round }
.spot { fill: #ffffff; stroke: #2b3f55 }
.dot { fill: #1c2f44 }
.alarm { fill: #b00020; font-weight: bold }
"""
# colours of sides, and of the labels that they have at their ends
COLOURS = """.colour0, .label0 { fill: #c22f2f }
.colour1, .label1 { fill: #1a7f37 }
.colour2, .label2 { fill: #2257c9 }
"""
WARNING = """<pattern id="warning" width="9" height="9" patternUnits="userSpaceOnUse" patternTransform="rotate(45)">
<rect width="9" height="9" fill="#ff5c7c"/><rect width="4" height="9" fill="#c9002f"/></pattern>"""
# Sizes of numbers that stand in a spot, and of those beside a dot, largest first.
IN_SPOT, BESIDE = (7, 15), (11, 9.5, 8, 7, 6, 5, 4.2, 3.5, 3)
DIGIT, HIGH = 0.64, 0.8  # width of a digit, height of a number, for size 1
REACH = 80  # no number beside a dot meets one of a dot farther away


def short(x):
    """A number for the sheet, without needless digits."""
    return f"{x:.3f}".rstrip("0").rstrip(".")


def pair(point):
    return f"{short(point[0])},{short(point[1])}"


def between(least, x, most):
    return max(least, min(x, most))


def to_side(p, a, b):
    """How far point p is from the side from a to b."""
    dx, dy = b[0] - a[0], b[1] - a[1]
    length = dx * dx + dy * dy
    along = between(0, ((p[0] - a[0]) * dx + (p[1] - a[1]) * dy) / length, 1) if length else 0
    return math.hypot(p[0] - a[0] - along * dx, p[1] - a[1] - along * dy)


def arrow(a, b, room=math.inf):
    """The path of an arrowhead amid the side from a to b, smaller where the side is short or has little room beside it."""
    far = math.dist(a, b) or 1
    x, y = (b[0] - a[0]) / far, (b[1] - a[1]) / far
    long = between(2, min(far / 5, room), 13)
    tip = (a[0] + b[0] + x * long) / 2, (a[1] + b[1] + y * long) / 2
    ends = [(tip[0] - x * long - y * wide, tip[1] - y * long + x * wide) for wide in (0.45 * long, -0.45 * long)]
    return f"M{pair(tip)} {pair(ends[0])} {pair(ends[1])}Z"


class Box:
    """An upright box about a point."""

    def __init__(self, x, y, wide, high):
        self.x, self.y, self.wide, self.high = x, y, wide / 2, high / 2

    def near(self, point):
        """How far the box is from a point; 0 inside."""
        return math.hypot(max(abs(point[0] - self.x) - self.wide, 0), max(abs(point[1] - self.y) - self.high, 0))

    def cut(self, a, b):
        """Whether the line through a and b comes within 2 of the box."""
        dx, dy = b[0] - a[0], b[1] - a[1]
        off = abs((self.x - a[0]) * dy - (self.y - a[1]) * dx)
        return off < self.wide * abs(dy) + self.high * abs(dx) + 2 * math.hypot(dx, dy)

    def meets(self, other):
        return abs(self.x - other.x) < self.wide + other.wide and abs(self.y - other.y) < self.high + other.high


class Sheet:
    """Places on the sheet: v0 at the left, v1 at the right, v2 at the top."""

    def __init__(self, drawn, labelled=False):
        self.drawn, self.labelled, mesh = drawn, labelled, drawn.mesh
        self.width = round(640 + 60 * math.sqrt(mesh.n))
        shares = [[x / drawn.total for x in place] for place in drawn.b]
        flat = [(s[1] + s[2] / 2, -math.sqrt(3) / 2 * s[2]) for s in shares]
        left, right = min(x for x, _ in flat), max(x for x, _ in flat)
        top, bottom = min(y for _, y in flat), max(y for _, y in flat)
        scale = (self.width - 2 * MARGIN) / (right - left)
        self.at = [(MARGIN + scale * (x - left), MARGIN + scale * (y - top)) for x, y in flat]
        self.height = round(2 * MARGIN + scale * (bottom - top))
        # for each vertex how far the nearest other side is, for each triangle its least height
        self.room = [math.inf] * mesh.n
        self.thin = [math.inf] * len(mesh.triangles)
        for t, corners in enumerate(mesh.triangles[1:], 1):
            for i, j in sides(corners):
                v = mesh.third(i, j)
                far = to_side(self.at[v], self.at[i], self.at[j])
                self.room[v] = min(self.room[v], far)
                self.thin[t] = min(self.thin[t], far)
        # how far the nearest vertex is, and the fourth; and who may be in a number's way
        far = [sorted((math.dist(p, q), v) for v, q in enumerate(self.at)) for p in self.at]
        self.gap = [row[1][0] for row in far]
        self.dense = [row[min(4, mesh.n - 1)][0] for row in far]
        self.dot = [between(0.4, gap * 0.3, 2.4) for gap in self.gap]
        self.about = [[u for away, u in row if away < REACH or u in mesh.rim] for row in far]

    def polygon(self, t, kind):
        drawn, corners = self.drawn, self.drawn.mesh.triangles[t]
        points = " ".join(pair(self.at[v]) for v in corners)
        about = "triangle {}: vertices {} {} {}, ".format(t, *corners)
        if t in drawn.raised:
            about += f"weight {drawn.lent[t]} raised to {drawn.weight[t]}"
        else:
            about += f"weight {drawn.weight[t]}"
        if t in drawn.wrong:
            about += ", turned" if drawn.area[t] < 0 else ", flat"
        return f'<polygon class="{kind}" points="{points}"><title>{about}</title></polygon>'

    def triangles(self):
        """Upright triangles; then flat and turned ones, above them."""
        drawn = self.drawn
        for t in drawn.area:
            if t not in drawn.wrong:
                yield self.polygon(t, "raised" if t in drawn.raised else "plain")
        for t in sorted(drawn.wrong):
            yield self.polygon(t, "raised wrong" if t in drawn.raised else "wrong")

    def sides(self):
        """Sides, thinner where triangles are thin."""
        mesh = self.drawn.mesh
        for (i, j), t in mesh.of.items():
            u = mesh.of[j, i]
            if i < j and t and u:
                width = between(0.15, min(self.thin[t], self.thin[u]) / 12, 1.3)
                yield f'<path class="side" stroke-width="{short(width)}" d="M{pair(self.at[i])} {pair(self.at[j])}"/>'

    def arrows(self):
        """Amid each inner side an arrow in its colour."""
        mesh = self.drawn.mesh
        for (i, j), t in mesh.of.items():
            u = mesh.of[j, i]
            if i < j and t and u:
                colour, tail, head = mesh.directed(i, j)
                room = 0.8 * min(self.thin[t], self.thin[u])
                about = f"<title>side {tail} to {head}, colour {colour}</title>"
                yield f'<path class="colour{colour}" d="{arrow(self.at[tail], self.at[head], room)}">{about}</path>'

    def labels(self):
        """The label of each corner of an inner triangle, where it fits: past the vertex's spot, amid its two sides."""
        mesh = self.drawn.mesh
        for t in self.drawn.area:
            size = min(15, self.thin[t] / 4)
            if size < 3:
                continue
            a, b, c = (self.at[v] for v in mesh.triangles[t])
            parts = math.dist(b, c), math.dist(c, a), math.dist(a, b)
            middle = [sum(part * at[k] for part, at in zip(parts, (a, b, c))) / sum(parts) for k in range(2)]
            within = to_side(middle, a, b)
            for v in mesh.triangles[t]:
                x, y = self.at[v]
                spot = min(self.room[v] * 0.6, self.gap[v] * 0.47, 15)
                along = between(0.1, max(0.8 * size / within, (spot + 0.6 * size) / math.dist((x, y), middle)), 0.9)
                x, y = x + along * (middle[0] - x), y + along * (middle[1] - y)
                label = mesh.label[t][v]
                yield (
                    f'<text class="number label{label}" font-size="{short(size)}" x="{short(x)}"'
                    f' y="{short(y + 0.36 * size)}">{label}</text>'
                )

    def rim(self):
        points = " ".join(pair(self.at[v]) for v in self.drawn.mesh.rim)
        return f'<polygon class="rim" points="{points}"/>'

    def ways(self, v):
        """Directions from v: amid its sides, the widest part first; then any."""
        x, y = self.at[v]
        turns = sorted(math.atan2(self.at[u][1] - y, self.at[u][0] - x) for u in self.drawn.mesh.beside[v])
        parts = [(b - a, (a + b) / 2) for a, b in zip(turns, turns[1:] + [turns[0] + 2 * math.pi])]
        ways = [way for _, way in sorted(parts, reverse=True)[:6]]
        return [(math.cos(way), math.sin(way)) for way in ways + [k * math.pi / 6 for k in range(12)]]

    def clear(self, v, box, found, own):
        """Whether a number's box is clear of the rim and of other numbers, and no other dot is as near as `own`."""
        v0, v1, v2 = (self.at[u] for u in self.drawn.mesh.rim)
        return (
            not any(u in found and box.meets(found[u][1]) for u in self.about[v])
            and not any(box.cut(a, b) for a, b in sides((v0, v1, v2)))
            and all(u == v or box.near(self.at[u]) > max(own, self.dot[u] + 0.5) for u in self.about[v])
        )

    def numbers(self):
        """For each vertex its number's size and box; none where it does not fit.

        A number stands in a spot, or beside a dot: clear of the other dots and
        numbers, and nearer to its own dot than to any other.
        """
        mesh = self.drawn.mesh
        found = {}
        wide = [DIGIT * len(str(v)) for v in range(mesh.n)]
        for v in range(mesh.n):
            radius = min(self.room[v] * 0.6, self.gap[v] * 0.47, 15)
            size = 1.8 * radius / math.hypot(wide[v], HIGH)
            if v not in mesh.rim and size >= IN_SPOT[0]:
                found[v] = min(size, IN_SPOT[1]), Box(*self.at[v], 2 * radius, 2 * radius)
        for c, v in enumerate(mesh.rim):
            x, y = self.at[v]
            found[v] = 17, Box(x + 20 * (-1, 1, 0)[c], y + 20 * (1, 1, -1)[c], 17 * (wide[v] + 3), 17 * HIGH)
        spread = sorted(range(mesh.n), key=lambda v: -self.dense[v])
        for size in BESIDE:
            for v in spread:
                if v in found or size > self.dense[v]:
                    continue
                w, h = size * wide[v], size * HIGH
                for x, y in self.ways(v):
                    far = self.dot[v] + size / 8 + min(w / 2 / max(abs(x), 1e-9), h / 2 / max(abs(y), 1e-9))
                    box = Box(self.at[v][0] + far * x, self.at[v][1] + far * y, w, h)
                    if self.clear(v, box, found, box.near(self.at[v]) + size / 6):
                        found[v] = size, box
                        break
        return found

    def vertices(self):
        found = self.numbers()
        rim = self.drawn.mesh.rim
        for v, at in enumerate(self.at):
            x, y = map(short, at)
            title = "<title>vertex {}: {}, {}, {}</title>".format(v, *self.drawn.b[v])
            size, box = found.get(v, (0, None))
            if box and (box.x, box.y) == at:
                radius = box.wide
                spot = f'<circle class="spot" stroke-width="{short(radius / 11)}" cx="{x}" cy="{y}" r="{short(radius)}"/>'
                kind = "number"
            else:
                radius = 4 if v in rim else self.dot[v]
                spot = f'<circle class="dot" cx="{x}" cy="{y}" r="{short(radius)}"/>'
                kind = "number beside"
            if box:
                name = f"v{rim.index(v)} = {v}" if v in rim else v
                halo = "" if kind == "number" else f' stroke-width="{short(size / 4)}"'
                spot += (
                    f'<text class="{kind}" font-size="{short(size)}"{halo} x="{short(box.x)}"'
                    f' y="{short(box.y + 0.36 * size)}">{name}</text>'
                )
            yield f"<g>{title}{spot}</g>"

    def legend(self):
        drawn = self.drawn
        n, raised, wrong = drawn.mesh.n, len(drawn.raised), len(drawn.wrong)
        lines = [
            ("", f"{n} vertices, {plural(2 * n - 5, 'triangle')}, N = {drawn.total}"),
            ("plain", "weight as given"),
            ("raised", f"weight raised: {plural(raised, 'triangle')}"),
        ]
        if wrong:
            lines.append(("wrong", f"FLAT OR TURNED: {plural(wrong, 'triangle')}"))
        for k, (kind, words) in enumerate(lines):
            y = 34 + 28 * k
            if kind:
                yield f'<rect class="{kind}" stroke="#54697f" x="22" y="{y - 15}" width="26" height="18"/>'
            style = ' class="alarm"' if kind == "wrong" else ""
            yield f'<text{style} font-size="16" x="{58 if kind else 22}" y="{y}">{words}</text>'

    def svg(self):
        size = f'viewBox="0 0 {self.width} {self.height}" width="{self.width}" height="{self.height}"'
        yield f'<svg xmlns="http://www.w3.org/2000/svg" {size}>'
        yield f"<title>Shell map of {self.drawn.mesh.n} vertices</title>"
        yield f"<style>{STYLE}{COLOURS if self.labelled else ''}</style>"
        yield f"<defs>{WARNING}</defs>"
        yield '<rect width="100%" height="100%" fill="#ffffff"/>'
        yield from self.triangles()
        yield from self.sides()
        yield self.rim()
        if self.labelled:
            yield from self.arrows()
            yield from self.labels()
        yield from self.vertices()
        yield from self.legend()
        yield "</svg>"


def main():
    parser = argparse.ArgumentParser(description="Draws a job text and its listing as an SVG.")
    parser.add_argument("job", metavar="JOB")
    parser.add_argument("listing", metavar="LISTING")
    parser.add_argument("--labels", action="store_true", help="labels in the corners, arrows on the sides")
    parser.add_argument("--outer", metavar="PLACE", type=int, default=0, help="place of the outer triangle, counted from 0")
    parser.add_argument("-o", "--output", metavar="OUT", help="file to write (standard output if not given)")
    words = parser.parse_args()
    try:
        svg = "\n".join(Sheet(Map(words.job, words.listing, words.outer), words.labels).svg()) + "\n"
        if words.output:
            with open(words.output, "w", encoding="ascii") as file:
                file.write(svg)
        else:
            sys.stdout.write(svg)
    except Malformed as error:
        print(f"draw: {error}", file=sys.stderr)
        return 1
    except OSError as error:
        print(f"draw: {words.output or 'standard output'}: {error.strerror}", file=sys.stderr)
        return 1
    return 0


if __name__ == "__main__":
    sys.exit(main())
