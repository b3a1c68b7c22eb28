//! Labels on random spheres from 3 to 4,096 vertices, on damaged meshes, and
//! with wrong lengths, with outer numbers of every kind.

use crate::meshes::{outer_number, stale_bytes, stale_scratch, vertices};
use crate::tally::{told, Tally};
use second::spheres::{self, Rng};
use second::{damage, labels, Work};

fn one(tally: &mut Tally, work: &mut Work, n: usize, outer: usize, triangles: &[u16], cut: usize) {
    let len = (6 * n).saturating_sub(15 + cut);
    let (mut ours, mut theirs) = (stale_bytes(len), stale_bytes(len));
    let (mut scratch, mut other) = (stale_scratch(n), stale_scratch(n));
    let answer = told(packmap::labels(
        n,
        outer,
        triangles,
        &mut ours,
        &mut scratch,
    ));
    let wanted = labels::labels(work, n, outer, triangles, &mut theirs, &mut other);
    let same = answer == wanted && ours == theirs && scratch == other;
    tally.count(answer, same, || {
        format!("n {n}, outer {outer}, {triangles:?}: {answer:?} and {wanted:?}")
    });
}

pub fn run(count: usize, seed: u64) -> Tally {
    let mut rng = Rng(seed);
    let mut work = Work::default();
    let mut tally = Tally::new("labels", &[0, 1, 2, 21, 3, 4, 5, 6, 7, 25, 8]);
    one(&mut tally, &mut work, 2, usize::MAX, &[], 0);
    for round in 0..count {
        let n = if round < 3 { 4096 } else { vertices(&mut rng) };
        if rng.chance(8) {
            let number = damage::MESH_NUMBERS[rng.below(7)];
            let bad = damage::mesh(&mut rng, number, n);
            let outer = outer_number(&mut rng, bad.n);
            one(&mut tally, &mut work, bad.n, outer, &bad.triangles, 0);
        } else {
            let triangles = spheres::sphere(&mut rng, n);
            let (outer, cut) = (outer_number(&mut rng, n), rng.chance(50) as usize);
            one(&mut tally, &mut work, n, outer, &triangles, cut);
        }
    }
    tally
}
