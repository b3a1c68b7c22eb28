//! Forward and backward map on an accepted mesh and its labels, and the forward
//! map of ranges; all linear.
//!
//! In an inner triangle p, q, r are the corners labelled 0, 1, 2. Side pq is
//! the one its colour-2 walk crosses: the side above the triangle. It either
//! has colour 0 and runs from q to p, or colour 1 and runs from p to q. Side
//! qr has colour 1 towards q or colour 2 towards r, side rp colour 0 towards p
//! or colour 2 towards r.

use crate::labels::Labels;
use crate::mesh::{has_place, next, prev, slot, Mesh, OUTER, RIM};
use crate::{exact, weigh, Answer, Refusal, Sizes, Work, LIMIT};

/// A side that colour-2 walks cross, with the triangle below it, which crosses
/// it first.
#[derive(Clone, Copy)]
pub struct Side {
    /// Dart from p to q of the triangle below.
    pub dart: u16,
    /// The triangle that walks enter here.
    pub up: u16,
    /// Ends by direction: from q to p for colour 0, from p to q for colour 1.
    pub tail: u16,
    pub head: u16,
    pub colour: u8,
}

impl Side {
    pub fn below(&self) -> usize {
        self.dart as usize / 3
    }
}

/// The colour-2 walks of all triangles make a tree that hangs from side v0 v1.
/// `sides` lists it from there, branches nearer v0 first. The branches below
/// the sides of a path of colour 0 lie side by side, the one nearest v0 first;
/// so each side of colour 0 comes after the rest of its path to v0, and, read
/// backwards, each side of colour 1 comes after the rest of its path to v1.
#[derive(Default)]
pub struct Walks {
    pub sides: Vec<Side>,
    /// Weights of all triangles whose walk passes a triangle.
    sums: Vec<i64>,
    stack: Vec<Side>,
}

impl Walks {
    /// Walks come into p, q, r across qr, from r to q and of colour 1, or
    /// across rp, from r to p and of colour 0, unless the side has colour 2.
    pub fn build(&mut self, mesh: &Mesh, labels: &Labels) {
        let [v0, v1, _] = mesh.rim();
        let top = Side {
            dart: mesh.opposite(RIM[2]) as u16,
            up: OUTER as u16,
            tail: v1 as u16,
            head: v0 as u16,
            colour: 0,
        };
        self.sides.clear();
        // Two places past the most that can wait: each take puts back two.
        self.stack.resize(mesh.corner.len() / 3 + 2, top);
        self.stack[0] = top;
        let mut waiting = 1;
        while waiting > 0 {
            waiting -= 1;
            let side = self.stack[waiting];
            self.sides.push(side);
            let pq = side.dart as usize;
            let rp = prev(pq);
            let up = side.below() as u16;
            let r = mesh.corner[rp];
            // Across qr and across rp; the latter is taken first.
            for (dart, head, colour) in [
                (mesh.turn[rp], mesh.corner[next(pq)], 1),
                (mesh.turn[pq], mesh.corner[pq], 0),
            ] {
                self.stack[waiting] = Side {
                    dart,
                    up,
                    tail: r,
                    head,
                    colour,
                };
                waiting += (labels.at[prev(dart as usize)] == 2) as usize;
            }
        }
    }

    /// The coordinates of the weights.
    pub fn forward(&mut self, mesh: &Mesh, weights: &[i64], b: &mut [i64]) {
        self.sums.resize(mesh.corner.len() / 3, 0);
        self.sums[OUTER] = 0;
        for t in mesh.inner() {
            self.sums[t] = weights[slot(t)];
        }
        for v in mesh.rim() {
            b[3 * v..3 * v + 2].fill(0);
        }
        for side in self.sides.iter().rev() {
            let s = self.sums[side.below()];
            self.sums[side.up as usize] += s;
            if side.colour == 1 {
                b[3 * side.tail as usize] = b[3 * side.head as usize] + s;
            }
        }
        for side in &self.sides {
            if side.colour == 0 {
                let s = self.sums[side.below()];
                b[3 * side.tail as usize + 1] = b[3 * side.head as usize + 1] + s;
            }
        }
        // Side v0 v1 has colour 1 as well, and leads to v1.
        let total = self.sums[OUTER];
        let [v0, ..] = mesh.rim();
        b[3 * v0] = total;
        for v in b.chunks_exact_mut(3) {
            v[2] = total - v[0] - v[1];
        }
    }
}

/// Rows 10, 11, 12.
fn placed(mesh: &Mesh, b: &[i64]) -> Answer<()> {
    if b.iter().any(|x| !(-LIMIT..=LIMIT).contains(x)) {
        return Err(Refusal::plain(10));
    }
    let rim = mesh.rim();
    let total = b[3 * rim[0]];
    for (c, v) in rim.into_iter().enumerate() {
        let mut corner = [0; 3];
        corner[c] = total;
        if b[3 * v..3 * v + 3] != corner {
            return Err(Refusal::plain(11));
        }
    }
    if b.chunks_exact(3).any(|v| v.iter().sum::<i64>() != total) {
        return Err(Refusal::plain(12));
    }
    Ok(())
}

/// The weight of inner triangle t for coordinates b.
fn weight(mesh: &Mesh, labels: &Labels, b: &[i64], t: usize) -> i64 {
    let pq = labels.zero(t);
    let (qr, rp) = (next(pq), prev(pq));
    let [p, q, r] = [pq, qr, rp].map(|d| 3 * mesh.corner[d] as usize);
    // Whether the triangle across a side has this label at the side's tail, as
    // t has it: then the side has that colour and points to its tail.
    let back = |opposite: u16, label: u8| labels.at[next(opposite as usize)] == label;
    let to_p = back(mesh.turn[qr], 0);
    let to_q = back(mesh.turn[rp], 1);
    let to_r = back(mesh.turn[pq], 2);
    let above = [b[p] - b[q], b[q + 1] - b[p + 1]][to_p as usize];
    above - (b[r] - b[q]) * to_q as i64 - (b[r + 1] - b[p + 1]) * !to_r as i64
}

/// The forward map as a call.
pub fn forward(
    work: &mut Work,
    n: usize,
    outer: usize,
    triangles: &[u16],
    weights: &[i64],
    coordinates: &mut [i64],
    scratch: &mut [i64],
) -> Answer<()> {
    let sizes = Sizes::of(n)?;
    exact(&[
        (triangles.len(), sizes.triangles),
        (weights.len(), sizes.weights),
        (coordinates.len(), sizes.coordinates),
        (scratch.len(), sizes.scratch),
    ])?;
    scratch.fill(0);
    work.open(n, outer, triangles)?;
    weigh(weights)?;
    work.walks.build(&work.mesh, &work.labels);
    work.walks.forward(&work.mesh, weights, coordinates);
    Ok(())
}

/// The forward map of ranges as a call: a low and a high for each weight, and for
/// each coordinate. A coordinate sums the weights of some triangles, so its low is
/// that of the lows, and its high that of the highs.
pub fn forward_range(
    work: &mut Work,
    n: usize,
    outer: usize,
    triangles: &[u16],
    [lows, highs]: [&[i64]; 2],
    [low, high]: [&mut [i64]; 2],
    scratch: &mut [i64],
) -> Answer<()> {
    let sizes = Sizes::of(n)?;
    exact(&[
        (triangles.len(), sizes.triangles),
        (lows.len(), sizes.weights),
        (highs.len(), sizes.weights),
        (low.len(), sizes.coordinates),
        (high.len(), sizes.coordinates),
        (scratch.len(), sizes.scratch),
    ])?;
    scratch.fill(0);
    has_place(triangles, outer)?;
    if lows.iter().zip(highs).any(|(low, high)| low > high) {
        return Err(Refusal::plain(29));
    }
    work.open(n, outer, triangles)?;
    weigh(lows)?;
    weigh(highs)?;
    work.walks.build(&work.mesh, &work.labels);
    work.walks.forward(&work.mesh, lows, low);
    work.walks.forward(&work.mesh, highs, high);
    Ok(())
}

/// The backward map as a call.
pub fn backward(
    work: &mut Work,
    n: usize,
    outer: usize,
    triangles: &[u16],
    coordinates: &[i64],
    weights: &mut [i64],
    scratch: &mut [i64],
) -> Answer<()> {
    let sizes = Sizes::of(n)?;
    exact(&[
        (triangles.len(), sizes.triangles),
        (coordinates.len(), sizes.coordinates),
        (weights.len(), sizes.weights),
        (scratch.len(), sizes.scratch),
    ])?;
    scratch.fill(0);
    work.open(n, outer, triangles)?;
    placed(&work.mesh, coordinates)?;
    let Work {
        mesh,
        labels,
        found,
        ..
    } = work;
    found.resize(sizes.weights, 0);
    for t in mesh.inner() {
        found[slot(t)] = weight(mesh, labels, coordinates, t);
    }
    weigh(found)?;
    weights.copy_from_slice(found);
    Ok(())
}
