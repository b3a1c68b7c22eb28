//! The mesh check: random spheres and damaged meshes from 3 to 4,096 vertices,
//! with outer numbers of every kind, and wrong lengths, with scratch that holds
//! something.

use crate::tally::{told, Tally};
use second::spheres::{self, Rng};
use second::{damage, mesh, Sizes, Work};

/// A number of vertices: small ones often, large ones now and then.
pub fn vertices(rng: &mut Rng) -> usize {
    match rng.below(40) {
        0 => 3 + rng.below(4094),
        1..=4 => 3 + rng.below(300),
        _ => 3 + rng.below(30),
    }
}

/// An outer number for n vertices: often 0, often another place, at times none.
pub fn outer_number(rng: &mut Rng, n: usize) -> usize {
    let count = (2 * n).saturating_sub(4).max(1);
    match rng.below(16) {
        0..=4 => 0,
        5..=12 => rng.below(count),
        13 => count - 1,
        14 => damage::no_place(rng, n.max(3)),
        _ => [count, count + 1, usize::MAX][rng.below(3)],
    }
}

/// Numbers that a lent slice may hold.
pub fn stale(len: usize) -> Vec<i64> {
    (0..len as i64).map(|i| i * 0x9e37_79b9 - 5).collect()
}

/// Scratch for n vertices, with something in it.
pub fn stale_scratch(n: usize) -> Vec<i64> {
    stale(packmap::scratch_len(n))
}

/// Bytes that a lent slice may hold.
pub fn stale_bytes(len: usize) -> Vec<u8> {
    (0..len).map(|i| (i * 7 + 3) as u8).collect()
}

fn one(tally: &mut Tally, work: &mut Work, n: usize, outer: usize, triangles: &[u16], len: usize) {
    let mut ours = stale(len);
    let mut theirs = ours.clone();
    let answer = told(packmap::check(n, outer, triangles, &mut ours));
    let wanted = mesh::check(work, n, outer, triangles, &mut theirs);
    tally.count(answer, answer == wanted && ours == theirs, || {
        format!("n {n}, outer {outer}, {triangles:?}: {answer:?} and {wanted:?}")
    });
}

pub fn run(count: usize, seed: u64) -> Tally {
    let mut rng = Rng(seed);
    let mut work = Work::default();
    let mut tally = Tally::new("mesh check", &[0, 1, 2, 21, 3, 4, 5, 6, 7, 25, 8]);
    for round in 0..count {
        let n = if round == 0 { 4096 } else { vertices(&mut rng) };
        let whole = Sizes::of(n).map_or(0, |s| s.scratch);
        let triangles = if rng.chance(4) {
            spheres::sphere(&mut rng, n)
        } else {
            let number = damage::MESH_NUMBERS[rng.below(7)];
            let bad = damage::mesh(&mut rng, number, n);
            let (outer, len) = (outer_number(&mut rng, bad.n), packmap::scratch_len(bad.n));
            one(&mut tally, &mut work, bad.n, outer, &bad.triangles, len);
            continue;
        };
        let outer = outer_number(&mut rng, n);
        one(&mut tally, &mut work, n, outer, &triangles, whole);
        if rng.chance(8) {
            let outer = outer_number(&mut rng, n);
            let cut = rng.below(2);
            let (lent, len) = (&triangles[cut..], whole - (1 - cut));
            one(&mut tally, &mut work, n, outer, lent, len);
            let other = rng.below(3) + 4096 * rng.below(2) * 2;
            one(&mut tally, &mut work, other, outer, &triangles, whole);
            one(&mut tally, &mut work, n, outer, &triangles, 24 * n);
        }
    }
    tally
}
