//! The proved calls against themselves: with the outer triangle at any place they
//! answer and leave what they do with the list in which it is moved to the front
//! by hand, and the mesh check answers the same for every place, with the same
//! vertex. Then the order of rows 1, 2, 21 and 3 on meshes that several refuse,
//! and document 01's checked shells with their outer triangle at every place.

use crate::meshes::{outer_number, stale, stale_bytes, stale_scratch, vertices};
use crate::tally::{told, Tally};
use second::shells::{FIVE, PAIR, ROWS, TETRA};
use second::spheres::{self, moved, Rng};
use second::{damage, Answer, Refusal};

/// An answer with all that a call may write, behind each other.
type Left = (Answer<u64>, Vec<u8>, Vec<i64>);

/// Answers and buffers of the six calls: check, labels, forward, range, backward,
/// repair. The ranges go from the weights to 1 above them, and the backward map is
/// asked for what the forward map wrote.
fn left(n: usize, outer: usize, mesh: &[u16], weights: &[i64]) -> [Left; 6] {
    let none = |answer| told(answer).map(|()| 0);
    let mut scratch = [(); 6].map(|_| stale_scratch(n));
    let checked = packmap::check(n, outer, mesh, &mut scratch[0]);
    let mut labels = stale_bytes(packmap::labels_len(n));
    let labelled = packmap::labels(n, outer, mesh, &mut labels, &mut scratch[1]);
    let mut there = stale(packmap::coordinates_len(n));
    let forward = packmap::forward(n, outer, mesh, weights, &mut there, &mut scratch[2]);
    let highs: Vec<i64> = weights.iter().map(|w| w.saturating_add(1)).collect();
    let [mut low, mut high] = [(); 2].map(|_| stale(packmap::coordinates_len(n)));
    let (b0, b1) = (&mut low, &mut high);
    let ranged = packmap::forward_range(n, outer, mesh, weights, &highs, b0, b1, &mut scratch[3]);
    let mut back = stale(packmap::weights_len(n));
    let backward = packmap::backward(n, outer, mesh, &there, &mut back, &mut scratch[4]);
    let (mut raised, mut drawn) = (weights.to_vec(), stale(packmap::coordinates_len(n)));
    let (w, b) = (&mut raised, &mut drawn);
    let repaired = packmap::repair(n, outer, mesh, w, b, &mut scratch[5]);
    let [a, b, c, d, e, f] = scratch;
    [
        (none(checked), vec![], a),
        (none(labelled), labels, b),
        (none(forward), vec![], [there, c].concat()),
        (none(ranged), vec![], [low, high, d].concat()),
        (none(backward), vec![], [back, e].concat()),
        (told(repaired), vec![], [raised, drawn, f].concat()),
    ]
}

fn same(tally: &mut Tally, n: usize, outer: usize, mesh: &[u16], weights: &[i64]) {
    let listed = left(n, outer, mesh, weights);
    let front = left(n, 0, &moved(mesh, outer, 0), weights);
    for (call, (one, other)) in listed.iter().zip(&front).enumerate() {
        tally.count(one.0, one == other, || {
            let (one, other) = (one.0, other.0);
            format!(
                "call {call}, n {n}, outer {outer}, {mesh:?}, {weights:?}: {one:?} and {other:?}"
            )
        });
    }
}

/// The mesh check for every place, or for a few where there are many.
fn every_place(tally: &mut Tally, rng: &mut Rng, n: usize, mesh: &[u16], wanted: Answer<()>) {
    let count = 2 * n - 4;
    let mut places: Vec<usize> = (0..count).collect();
    if count > 60 {
        places = vec![0, 1, count - 1];
        places.extend((0..9).map(|_| rng.below(count)));
    }
    for outer in places {
        known(tally, n, outer, mesh, stale_scratch(n), wanted);
    }
}

/// The mesh check, whose answer is known, with its vertex; and so is the scratch.
fn known(
    tally: &mut Tally,
    n: usize,
    outer: usize,
    mesh: &[u16],
    mut scratch: Vec<i64>,
    wanted: Answer<()>,
) {
    let lent = scratch.clone();
    let answer = told(packmap::check(n, outer, mesh, &mut scratch));
    let kept = matches!(wanted, Err(Refusal { number: 1 | 2, .. }));
    let clean = if kept {
        scratch == lent
    } else {
        scratch.iter().all(|&word| word == 0)
    };
    tally.count(answer, answer == wanted && clean, || {
        format!("n {n}, outer {outer}, {mesh:?}: {answer:?}, and the answer is {wanted:?}")
    });
}

/// Rows 1, 2, 21 and 3 to 8 in this order: each mesh breaks all from some row on.
fn order(tally: &mut Tally) {
    let refused = |number| Err(Refusal::plain(number));
    for (refusal, n, mesh) in ROWS {
        let (last, short) = (2 * n - 5, stale(10 * n - 1));
        for outer in [last + 1, last + 2, usize::MAX] {
            for few in [0, 2, 4097, usize::MAX] {
                known(tally, few, outer, mesh, short.clone(), refused(1));
            }
            known(tally, n, outer, mesh, short.clone(), refused(2));
            known(tally, n, outer, &mesh[1..], stale_scratch(n), refused(2));
            known(tally, n, outer, mesh, stale_scratch(n), refused(21));
        }
        known(tally, n, last, mesh, stale_scratch(n), Err(refusal));
    }
}

/// P1 to P8: the first triangle is moved to each place, and the answers stay.
fn papers(tally: &mut Tally) {
    let shells: [(usize, &[u16]); 3] = [(3, &PAIR), (4, &TETRA), (5, &FIVE)];
    for (n, mesh) in shells {
        for weights in [[1; 5], [0; 5], [-1; 5], [5, 3, -1, 2, 7]] {
            let weights = &weights[..2 * n - 5];
            let wanted = left(n, 0, mesh, weights);
            for outer in 0..2 * n - 4 {
                let got = left(n, outer, &moved(mesh, 0, outer), weights);
                tally.count(got[0].0, got == wanted, || {
                    format!("n {n}, {mesh:?}, moved to {outer}, {weights:?}")
                });
            }
        }
    }
    // Opened at its last triangle, vertex 2 of the tetra is the inner one.
    let (mut drawn, mut scratch) = (stale(12), stale_scratch(4));
    let answer = told(packmap::forward(
        4,
        3,
        &TETRA,
        &[5, 3, 2],
        &mut drawn,
        &mut scratch,
    ));
    let wanted = [10, 0, 0, 0, 0, 10, 2, 5, 3, 0, 10, 0];
    tally.count(answer, answer.is_ok() && drawn == wanted, || {
        format!("the tetra opened at its last triangle: {answer:?}, {drawn:?}")
    });
}

pub fn run(count: usize, seed: u64) -> Tally {
    let mut rng = Rng(seed);
    let rows = &[0, 1, 2, 21, 3, 4, 5, 6, 7, 25, 8, 9, 13];
    let mut tally = Tally::new("outer numbers", rows);
    order(&mut tally);
    papers(&mut tally);
    for round in 0..count {
        let n = if round == 0 { 4096 } else { vertices(&mut rng) };
        let mesh = spheres::sphere(&mut rng, n);
        let weights = match rng.below(8) {
            0 => damage::heavy(&mut rng, 2 * n - 5),
            1 => damage::stuck(&mut rng, 2 * n - 5),
            _ => spheres::any_weights(&mut rng, 2 * n - 5),
        };
        let outer = outer_number(&mut rng, n) % (2 * n - 4);
        same(&mut tally, n, outer, &mesh, &weights);
        every_place(&mut tally, &mut rng, n, &mesh, Ok(()));
        let number = damage::MESH_NUMBERS[round % damage::MESH_NUMBERS.len()];
        let bad = damage::mesh(&mut rng, number, n.min(60));
        let wanted = Err(bad.refusal);
        every_place(&mut tally, &mut rng, bad.n, &bad.triangles, wanted);
        let outer = outer_number(&mut rng, bad.n) % (2 * bad.n - 4);
        let weights = vec![1; 2 * bad.n - 5];
        same(&mut tally, bad.n, outer, &bad.triangles, &weights);
        let outer = damage::no_place(&mut rng, n);
        let refused = Err(Refusal::plain(21));
        known(&mut tally, n, outer, &mesh, stale_scratch(n), refused);
    }
    tally
}
