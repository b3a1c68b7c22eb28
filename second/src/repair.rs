//! Repair by raises. A raise moves each vertex along one coordinate, the one
//! whose region holds it, and leaves the area of every triangle alone that
//! does not lie on one of the three walks of the raised triangle. So b1 is
//! kept in an order in which the vertices below a side of colour 0 stand in a
//! row, b0 likewise for colour 1; a raise adds to a few rows, and looks only at
//! triangles on its three walks. A fully extended triangle stays so and is not
//! looked at again; one that the search for the lowest has not come to yet is
//! left for that search. Where N is below 1, inner triangle 1 is raised before
//! any is looked at.

use crate::maps::{Side, Walks};
use crate::mesh::{next, prev, slot, Mesh, OUTER};
use crate::minset::MinSet;
use crate::{exact, weigh, Answer, Extra, Refusal, Sizes, Work, LIMIT};

/// Place of inner triangle 1.
const FIRST: usize = OUTER + 1;

/// One of two trees, colour 0 into v0 or colour 1 into v1, as a row of its
/// vertices in which each is followed by all that pass through it.
#[derive(Default)]
struct Tree {
    place: Vec<u16>,
    size: Vec<u16>,
    free: Vec<u16>,
    /// Coordinate 1 for colour 0, coordinate 0 for colour 1, by place.
    value: Vec<i64>,
}

impl Tree {
    /// `sides` lists (vertex, parent), parents first, for all but the root.
    fn build(&mut self, n: usize, root: usize, sides: &[(u16, u16)]) {
        self.size.clear();
        self.size.resize(n, 1);
        for &(v, up) in sides.iter().rev() {
            self.size[up as usize] += self.size[v as usize];
        }
        self.place.resize(n, 0);
        self.free.resize(n, 0);
        self.place[root] = 0;
        self.free[root] = 1;
        for &(v, up) in sides {
            let at = self.free[up as usize];
            self.free[up as usize] = at + self.size[v as usize];
            self.place[v as usize] = at;
            self.free[v as usize] = at + 1;
        }
        self.value.resize(n, 0);
    }
}

/// The side above a triangle: its colour, and the row of the vertices whose
/// path of that colour takes it.
#[derive(Clone, Copy, Default)]
struct Above {
    up: u16,
    from: u16,
    to: u16,
    colour: u16,
}

/// Buffers of a repair.
#[derive(Default)]
pub struct Raises {
    /// Trees of colour 0 and of colour 1.
    trees: [Tree; 2],
    sides: Vec<(u16, u16)>,
    /// For each triangle, places of p, q, r in the tree of colour 1 (for b0),
    /// then in the tree of colour 0 (for b1).
    corners: Vec<[u16; 6]>,
    above: Vec<Above>,
    /// Next triangle of the walks of colour 0 and 1.
    up: [Vec<u16>; 2],
    /// Sum of the weights.
    total: i64,
    /// Triangles before this one have been looked at.
    scan: usize,
    /// Those of them that are upright but not fully extended, or bad.
    watched: Vec<bool>,
    /// Those of them that are flat or turned.
    bad: MinSet,
    touched: Vec<u16>,
}

impl Raises {
    fn build(&mut self, mesh: &Mesh, walks: &Walks, b: &[i64]) {
        let [v0, v1, v2] = mesh.rim();
        self.total = b[3 * v0];
        self.plant(mesh, 0, [v0, v1, v2], walks.sides.iter(), b);
        self.plant(mesh, 1, [v1, v0, v2], walks.sides.iter().rev(), b);
        let triangles = mesh.corner.len() / 3;
        self.corners.resize(triangles, [0; 6]);
        self.above.resize(triangles, Above::default());
        for up in &mut self.up {
            up.resize(triangles, 0);
        }
        self.scan = 0;
        self.watched.clear();
        self.watched.resize(triangles, false);
        self.bad.reset(triangles);
        let [zero, one] = &self.trees;
        for side in &walks.sides {
            let t = side.below();
            let pq = side.dart as usize;
            let [p, q, r] = [pq, next(pq), prev(pq)].map(|d| mesh.corner[d] as usize);
            let places = |tree: &Tree| [p, q, r].map(|v| tree.place[v]);
            let ([p0, q0, r0], [p1, q1, r1]) = (places(one), places(zero));
            self.corners[t] = [p0, q0, r0, p1, q1, r1];
            self.up[0][t] = mesh.turn[prev(pq)] / 3;
            self.up[1][t] = mesh.turn[pq] / 3;
            let tree = &self.trees[side.colour as usize];
            let from = tree.place[side.tail as usize];
            self.above[t] = Above {
                up: side.up,
                from,
                to: from + tree.size[side.tail as usize],
                colour: side.colour.into(),
            };
        }
    }

    /// Builds the tree of a colour into `root`; the two other outer vertices
    /// hang there first.
    fn plant<'a>(
        &mut self,
        mesh: &Mesh,
        colour: usize,
        [root, other, v2]: [usize; 3],
        sides: impl Iterator<Item = &'a Side>,
        b: &[i64],
    ) {
        self.sides.clear();
        self.sides.push((v2 as u16, root as u16));
        self.sides.push((other as u16, root as u16));
        let inner = sides.filter(|s| s.colour as usize == colour && s.up as usize != OUTER);
        self.sides.extend(inner.map(|s| (s.tail, s.head)));
        let tree = &mut self.trees[colour];
        tree.build(mesh.n, root, &self.sides);
        for v in 0..mesh.n {
            tree.value[tree.place[v] as usize] = b[3 * v + 1 - colour];
        }
    }

    /// b0, b1 and b2 of p, q, r.
    #[inline]
    fn corners(&self, t: usize) -> [[i64; 3]; 3] {
        let at = &self.corners[t];
        let [zero, one] = [&self.trees[0].value, &self.trees[1].value];
        let b0 = [at[0], at[1], at[2]].map(|i| one[i as usize]);
        let b1 = [at[3], at[4], at[5]].map(|i| zero[i as usize]);
        let b2 = [0, 1, 2].map(|i| self.total - b0[i] - b1[i]);
        [b0, b1, b2]
    }

    /// What a raise of t adds to its weight; 0 or less where t is fully
    /// extended.
    #[inline]
    fn step(&self, t: usize) -> i64 {
        let [b0, b1, b2] = self.corners(t);
        let m0 = b0[1].max(b0[2]) - b0[0];
        let m1 = b1[2].max(b1[0]) - b1[1];
        let m2 = b2[0].max(b2[1]) - b2[2];
        1 + m0.max(m1).max(m2)
    }

    /// Whether t is flat or turned. Coordinates lie within -L..L, so the area
    /// number stays below 2^63.
    #[inline]
    fn is_bad(&self, t: usize) -> bool {
        let [[p0, q0, r0], [p1, q1, r1], _] = self.corners(t);
        (q0 - p0) * (r1 - p1) - (q1 - p1) * (r0 - p0) <= 0
    }

    /// Notes how t stands.
    #[inline]
    fn look(&mut self, t: usize) {
        let extended = self.step(t) <= 0;
        self.watched[t] = !extended;
        self.bad.put(t, !extended && self.is_bad(t));
    }

    /// The lowest triangle that is flat or turned.
    fn lowest(&mut self) -> Option<usize> {
        while self.bad.first().is_none() && self.scan < self.above.len() {
            if self.scan != OUTER {
                self.look(self.scan);
            }
            self.scan += 1;
        }
        self.bad.first()
    }

    /// The triangle to raise next, and by how much. N is below 1 before the
    /// first raise at most, which brings it to 1 or more.
    fn due(&mut self) -> Option<(usize, i64)> {
        if self.total < 1 {
            return Some((FIRST, self.step(FIRST).max(1 - self.total)));
        }
        let t = self.lowest()?;
        Some((t, self.step(t)))
    }

    /// Adds step to the coordinates that t's weight counts in, and looks at
    /// the watched triangles on its walks.
    fn raise(&mut self, v0: usize, t: usize, step: i64) {
        self.total += step;
        self.touched.clear();
        let [zero, one] = &mut self.trees;
        // Every walk ends across side v0 v1, which leads to v1 as well.
        one.value[one.place[v0] as usize] += step;
        let values = [&mut zero.value[..], &mut one.value[..]];
        let (above, watched) = (&self.above[..], &self.watched[..]);
        let mut at = t;
        while at != OUTER {
            let Above {
                up,
                from,
                to,
                colour,
            } = above[at];
            for x in &mut values[colour as usize][from as usize..to as usize] {
                *x += step;
            }
            if watched[at] {
                self.touched.push(at as u16);
            }
            at = up as usize;
        }
        for up in &self.up {
            let mut at = up[t] as usize;
            while at != OUTER {
                if watched[at] {
                    self.touched.push(at as u16);
                }
                at = up[at] as usize;
            }
        }
        for i in 0..self.touched.len() {
            self.look(self.touched[i] as usize);
        }
    }

    fn write(&self, b: &mut [i64]) {
        let [zero, one] = &self.trees;
        for (v, b) in b.chunks_exact_mut(3).enumerate() {
            b[0] = one.value[one.place[v] as usize];
            b[1] = zero.value[zero.place[v] as usize];
            b[2] = self.total - b[0] - b[1];
        }
    }
}

/// Repair as a call; the answer is the count of raises.
pub fn repair(
    work: &mut Work,
    n: usize,
    outer: usize,
    triangles: &[u16],
    weights: &mut [i64],
    coordinates: &mut [i64],
    scratch: &mut [i64],
) -> Answer<usize> {
    let sizes = Sizes::of(n)?;
    exact(&[
        (triangles.len(), sizes.triangles),
        (weights.len(), sizes.weights),
        (coordinates.len(), sizes.coordinates),
        (scratch.len(), sizes.scratch),
    ])?;
    scratch.fill(0);
    work.open(n, outer, triangles)?;
    let mut heft = weigh(weights)?;
    let Work {
        mesh,
        labels,
        walks,
        raises,
        ..
    } = work;
    walks.build(mesh, labels);
    walks.forward(mesh, weights, coordinates);
    raises.build(mesh, walks, coordinates);
    let [v0, ..] = mesh.rim();
    let mut count = 0;
    let answer = loop {
        let Some((t, step)) = raises.due() else {
            break Ok(count);
        };
        let w = weights[slot(t)];
        let heavier = heft - w.abs() + (w + step).abs();
        if heavier > LIMIT {
            break Err(Refusal {
                number: 13,
                extra: Extra::Count(count),
            });
        }
        heft = heavier;
        weights[slot(t)] = w + step;
        raises.raise(v0, t, step);
        count += 1;
    };
    raises.write(coordinates);
    answer
}
