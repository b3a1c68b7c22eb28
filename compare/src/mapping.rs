//! Forward and backward on random spheres, with weights, coordinates and outer
//! numbers of every kind, at the limits too, and with refused ones.

use crate::meshes::{outer_number, stale, stale_scratch, vertices};
use crate::tally::{told, Tally};
use second::spheres::{self, triangle, Rng};
use second::{damage, maps, Sizes, Work};

/// The slices that a call writes.
#[derive(PartialEq)]
struct Left {
    to: Vec<i64>,
    scratch: Vec<i64>,
}

impl Left {
    fn lent(len: usize, n: usize) -> Left {
        Left {
            to: stale(len),
            scratch: stale_scratch(n),
        }
    }
}

fn forth(
    tally: &mut Tally,
    work: &mut Work,
    n: usize,
    outer: usize,
    mesh: &[u16],
    weights: &[i64],
) -> Vec<i64> {
    let (mut ours, mut theirs) = (Left::lent(3 * n, n), Left::lent(3 * n, n));
    let (to, scratch) = (&mut ours.to, &mut ours.scratch);
    let answer = told(packmap::forward(n, outer, mesh, weights, to, scratch));
    let (to, scratch) = (&mut theirs.to, &mut theirs.scratch);
    let wanted = maps::forward(work, n, outer, mesh, weights, to, scratch);
    tally.count(answer, answer == wanted && ours == theirs, || {
        format!("n {n}, outer {outer}, {mesh:?}, {weights:?}: {answer:?} and {wanted:?}")
    });
    ours.to
}

fn back(
    tally: &mut Tally,
    work: &mut Work,
    n: usize,
    outer: usize,
    mesh: &[u16],
    coordinates: &[i64],
) {
    let len = Sizes::of(n).map_or(0, |s| s.weights);
    let (mut ours, mut theirs) = (Left::lent(len, n), Left::lent(len, n));
    let (to, scratch) = (&mut ours.to, &mut ours.scratch);
    let answer = told(packmap::backward(n, outer, mesh, coordinates, to, scratch));
    let (to, scratch) = (&mut theirs.to, &mut theirs.scratch);
    let wanted = maps::backward(work, n, outer, mesh, coordinates, to, scratch);
    tally.count(answer, answer == wanted && ours == theirs, || {
        format!("n {n}, outer {outer}, {mesh:?}, {coordinates:?}: {answer:?} and {wanted:?}")
    });
}

/// Coordinates with the outer vertices at their corners and the others anywhere.
fn anywhere(rng: &mut Rng, n: usize, [v0, v2, v1]: [u16; 3]) -> Vec<i64> {
    let reach = [5, 1000, second::LIMIT / n as i64 / 8, second::LIMIT / 3][rng.below(4)].max(1);
    let total = rng.within(-reach, reach);
    let mut b = vec![0; 3 * n];
    for at in b.chunks_exact_mut(3) {
        at[0] = rng.within(-reach, reach);
        at[1] = rng.within(-reach, reach);
        at[2] = total - at[0] - at[1];
    }
    for (v, c) in [(v0, 0), (v1, 1), (v2, 2)] {
        let v = usize::from(v);
        b[3 * v..3 * v + 3].fill(0);
        b[3 * v + c] = total;
    }
    b
}

pub fn run(count: usize, seed: u64) -> [Tally; 2] {
    let mut rng = Rng(seed);
    let mut work = Work::default();
    let mut forward = Tally::new("forward", &[0, 1, 2, 21, 3, 4, 5, 6, 7, 25, 8, 9]);
    let rows = &[0, 1, 2, 21, 3, 4, 5, 6, 7, 25, 8, 9, 10, 11, 12];
    let mut backward = Tally::new("backward", rows);
    forth(&mut forward, &mut work, 2, usize::MAX, &[], &[]);
    back(&mut backward, &mut work, 2, usize::MAX, &[], &[]);
    for round in 0..count {
        let n = if round < 2 {
            4096
        } else {
            vertices(&mut rng).max(4)
        };
        let mesh = spheres::sphere(&mut rng, n);
        let weights = if rng.chance(8) {
            damage::heavy(&mut rng, 2 * n - 5)
        } else {
            spheres::any_weights(&mut rng, 2 * n - 5)
        };
        let outer = outer_number(&mut rng, n);
        let b = forth(&mut forward, &mut work, n, outer, &mesh, &weights);
        let rim = triangle(&mesh, if outer < 2 * n - 4 { outer } else { 0 });
        let asked = match rng.below(8) {
            0 => {
                let number = 10 + rng.below(3) as u8;
                let good = anywhere_or(&b, &mut Rng(seed), n, rim);
                damage::coordinates(&mut rng, number, rim, &good)
            }
            1..=3 => anywhere(&mut rng, n, rim),
            _ => b,
        };
        back(&mut backward, &mut work, n, outer, &mesh, &asked);
        if rng.chance(16) {
            let number = damage::MESH_NUMBERS[rng.below(7)];
            let bad = damage::mesh(&mut rng, number, n.min(40));
            let (m, t) = (bad.n, &bad.triangles);
            let other = outer_number(&mut rng, m);
            let (ones, drawn) = (vec![1; 2 * m - 5], vec![1; 3 * m]);
            forth(&mut forward, &mut work, m, other, t, &ones);
            back(&mut backward, &mut work, m, other, t, &drawn);
            forth(&mut forward, &mut work, n, outer, &mesh, &weights[1..]);
            back(&mut backward, &mut work, n, outer, &mesh, &asked[1..]);
        }
    }
    [forward, backward]
}

/// The coordinates, or others where forward was refused and left them as lent.
fn anywhere_or(b: &[i64], rng: &mut Rng, n: usize, rim: [u16; 3]) -> Vec<i64> {
    if b.iter().all(|x| x.abs() <= second::LIMIT) {
        b.to_vec()
    } else {
        anywhere(rng, n, rim)
    }
}
