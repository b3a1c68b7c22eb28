//! Repair on random spheres, with outer numbers of every kind and weights of
//! every kind: zero, negative, with a total of 1 or less, near the limit, refused
//! by 9, and stopped by 13, at the first raise too; and the repairs worked out by
//! hand, P6 to P8 and row 13's example among them, with the outer triangle at
//! every place.

use crate::meshes::{outer_number, stale, stale_scratch, vertices};
use crate::tally::{told, Tally};
use second::shells::repairs;
use second::spheres::{self, moved, Rng};
use second::{damage, repair, Answer, Work};

/// The proved call.
fn raised(
    n: usize,
    outer: usize,
    mesh: &[u16],
    weights: &mut [i64],
    coordinates: &mut [i64],
    scratch: &mut [i64],
) -> Answer<usize> {
    let answer = packmap::repair(n, outer, mesh, weights, coordinates, scratch);
    told(answer).map(|raises| raises as usize)
}

fn one(tally: &mut Tally, work: &mut Work, n: usize, outer: usize, mesh: &[u16], weights: &[i64]) {
    let (mut ours, mut theirs) = (weights.to_vec(), weights.to_vec());
    let (mut there, mut other) = (stale(3 * n), stale(3 * n));
    let (mut scratch, mut spare) = (stale_scratch(n), stale_scratch(n));
    let answer = raised(n, outer, mesh, &mut ours, &mut there, &mut scratch);
    let wanted = repair::repair(work, n, outer, mesh, &mut theirs, &mut other, &mut spare);
    let buffers = ours == theirs && there == other && scratch == spare;
    tally.count(answer, answer == wanted && buffers, || {
        format!("n {n}, outer {outer}, {mesh:?}, {weights:?}: {answer:?} and {wanted:?}")
    });
}

/// The repairs worked out by hand.
fn by_hand(tally: &mut Tally) {
    for known in repairs() {
        let n = known.n;
        for outer in 0..2 * n - 4 {
            let mesh = moved(known.triangles, 0, outer);
            let (mut ours, mut there) = (known.weights.clone(), stale(3 * n));
            let answer = raised(
                n,
                outer,
                &mesh,
                &mut ours,
                &mut there,
                &mut stale_scratch(n),
            );
            let left = ours == known.left && there == known.coordinates;
            tally.count(answer, answer == known.answer && left, || {
                let weights = &known.weights;
                format!("{mesh:?}, outer {outer}, {weights:?}: {answer:?}, {ours:?}, {there:?}")
            });
        }
    }
}

pub fn run(count: usize, seed: u64) -> Tally {
    let mut rng = Rng(seed);
    let mut work = Work::default();
    let mut tally = Tally::new("repair", &[0, 1, 2, 21, 3, 4, 5, 6, 7, 25, 8, 9, 13]);
    by_hand(&mut tally);
    one(&mut tally, &mut work, 2, usize::MAX, &[], &[]);
    for _ in 0..count {
        let n = vertices(&mut rng).min(400);
        let mesh = spheres::sphere(&mut rng, n);
        let len = 2 * n - 5;
        let weights = match rng.below(10) {
            0 => damage::heavy(&mut rng, len),
            1 => damage::stuck(&mut rng, len),
            2 | 3 => spheres::weights(&mut rng, "balanced", len).expect("a kind"),
            _ => spheres::any_weights(&mut rng, len),
        };
        let outer = outer_number(&mut rng, n);
        one(&mut tally, &mut work, n, outer, &mesh, &weights);
        if rng.chance(16) {
            let number = damage::MESH_NUMBERS[rng.below(7)];
            let bad = damage::mesh(&mut rng, number, n.min(40));
            let (ones, other) = (vec![1; 2 * bad.n - 5], outer_number(&mut rng, bad.n));
            one(&mut tally, &mut work, bad.n, other, &bad.triangles, &ones);
            one(&mut tally, &mut work, n, outer, &mesh, &weights[1..]);
        }
    }
    tally
}
