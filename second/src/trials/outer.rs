//! Tests of the outer number: row 21 with its order, document 01's checked
//! shells with their outer triangle at every place, and random and damaged
//! meshes. What is wanted comes from the papers, and else from the same call on
//! the list with the outer triangle moved to the front by hand. The tests of the
//! other calls put the outer triangle at random places and hold them against the
//! slow references.

use super::maps::on_tetra;
use super::{refused, sizes, Trials};
use crate::shells::{FIVE, PAIR, ROWS, TETRA};
use crate::spheres::{any_weights, moved, place, sphere};
use crate::{damage, naive, Answer, Refusal};

/// What the calls on a mesh answer and leave.
type Answers = (
    Answer<()>,
    Answer<Vec<u8>>,
    Answer<Vec<i64>>,
    Answer<[Vec<i64>; 2]>,
    Answer<Vec<i64>>,
    (Answer<usize>, Vec<i64>, Vec<i64>),
);

impl Trials {
    /// Every call on a mesh. Ranges go from the weights to what is above them, and
    /// the coordinates for the backward map are those of the weights where there are
    /// any.
    fn every_call(&mut self, n: usize, outer: usize, t: &[u16], weights: &[i64]) -> Answers {
        let there = self.forward(n, outer, t, weights);
        let lent = vec![0; sizes(n).coordinates];
        let above: Vec<i64> = weights.iter().map(|&w| w.max(-w / 2)).collect();
        (
            self.mesh(n, outer, t),
            self.labels(n, outer, t),
            there.clone(),
            self.range(n, outer, t, [weights, &above]),
            self.backward(n, outer, t, there.as_ref().unwrap_or(&lent)),
            self.repair(n, outer, t, weights),
        )
    }

    /// Every call with the outer triangle at its place, and moved to the front.
    fn as_in_front(&mut self, n: usize, outer: usize, t: &[u16], weights: &[i64]) {
        let listed = self.every_call(n, outer, t, weights);
        let front = self.every_call(n, 0, &moved(t, outer, 0), weights);
        self.equal(
            listed,
            front,
            "the outer triangle at its place and in front",
        );
    }
}

/// P1 to P5, the first triangle of each shell moved to every place; P6 to P8 are
/// in `repair`.
pub(super) fn checked(trials: &mut Trials) {
    let in_turn = |triangles: usize| [0, 1, 2].repeat(triangles);
    let five = [in_turn(3), vec![1, 2, 0, 2, 0, 1]].concat();
    let shells: [(usize, &[u16], Vec<u8>); 3] = [
        (3, &PAIR, in_turn(1)),
        (4, &TETRA, in_turn(3)),
        (5, &FIVE, five),
    ];
    for (n, t, labels) in shells {
        for outer in 0..2 * n - 4 {
            let got = trials.labels(n, outer, &moved(t, 0, outer));
            trials.equal(got, Ok(labels.clone()), "P1 to P3 at a place");
        }
    }
    for outer in 0..6 {
        let got = trials.forward(5, outer, &moved(&FIVE, 0, outer), &[1; 5]);
        let wanted = vec![5, 0, 0, 0, 5, 0, 0, 0, 5, 1, 1, 3, 2, 2, 1];
        trials.equal(got, Ok(wanted), "P4 at a place");
    }
    // Vertex 3 is at (w2, w1, w3), whatever N is.
    for outer in 0..4 {
        let t = moved(&TETRA, 0, outer);
        for w in [[5, 3, 2], [5, 3, -1], [0; 3], [-1; 3]] {
            let total: i64 = w.iter().sum();
            let drawn = on_tetra(total, [0, total, 0], [w[1], w[0], w[2]]);
            let got = trials.forward(4, outer, &t, &w);
            trials.equal(got, Ok(drawn.clone()), "P5 at a place");
            let got = trials.backward(4, outer, &t, &drawn);
            trials.equal(got, Ok(w.to_vec()), "P5 at a place, back");
        }
    }
}

/// The tetra opened at its last triangle, (0, 1, 3): v0 = 0, v2 = 1, v1 = 3. Vertex
/// 2 has the weights of the triangles on v1 v2, on v0 v2 and on v0 v1.
pub(super) fn last_of_tetra(trials: &mut Trials) {
    let drawn = vec![10, 0, 0, 0, 0, 10, 2, 5, 3, 0, 10, 0];
    let got = trials.labels(4, 3, &TETRA);
    let wanted = vec![0, 1, 2, 0, 1, 2, 1, 2, 0];
    trials.equal(got, Ok(wanted), "the last triangle, labels");
    let got = trials.forward(4, 3, &TETRA, &[5, 3, 2]);
    trials.equal(got, Ok(drawn.clone()), "the last triangle, forward");
    let got = trials.backward(4, 3, &TETRA, &drawn);
    trials.equal(got, Ok(vec![5, 3, 2]), "the last triangle, backward");
}

/// Row 21 for meshes of every kind, whatever comes with them: it is asked before
/// 3. That 1 and 2 come first is tested with the lengths of each call.
pub(super) fn table(trials: &mut Trials) {
    let spheres: [(usize, &[u16]); 3] = [(3, &PAIR), (4, &TETRA), (5, &FIVE)];
    let meshes = spheres.into_iter().chain(ROWS.map(|(_, n, t)| (n, t)));
    for (n, t) in meshes {
        for outer in [2 * n - 4, 2 * n - 3, 3 * n, 1 << 32, usize::MAX] {
            trials.mesh_refused(n, outer, t, Refusal::plain(21));
        }
    }
    let got = trials.mesh(4, 3, &TETRA);
    trials.equal(got, Ok(()), "the last triangle");
    let got = trials.mesh(4, 4, &TETRA[..9]);
    trials.equal(got, refused(2), "2 before 21");
}

/// Random spheres: every place of small ones, a few of large ones, and places
/// past the last.
pub(super) fn every_place(trials: &mut Trials) {
    for round in 0..trials.rounds {
        let n = match round {
            0 => 4096,
            _ => trials.size_in(round, 300),
        };
        let t = sphere(&mut trials.rng, n);
        let count = 2 * n - 4;
        let mut places = vec![0, 1, count / 2, count - 2, count - 1];
        places.push(place(&mut trials.rng, n));
        if n <= 12 {
            places = (0..count).collect();
        }
        for outer in places {
            let weights = any_weights(&mut trials.rng, 2 * n - 5);
            trials.as_in_front(n, outer, &t, &weights);
        }
        let outer = damage::no_place(&mut trials.rng, n);
        trials.mesh_refused(n, outer, &t, Refusal::plain(21));
        if n <= 60 {
            let slow = naive::refusal(n, outer, &t);
            trials.equal(slow, Some(Refusal::plain(21)), "21, slow check");
        }
    }
}

/// Damaged meshes: with every outer number the refusal is the same, and so is the
/// vertex that it carries; with none that is a place, 21 comes first.
pub(super) fn damaged(trials: &mut Trials) {
    for _ in 0..trials.rounds {
        for number in damage::MESH_NUMBERS {
            let n = trials.size(40);
            let bad = damage::mesh(&mut trials.rng, number, n);
            let weights = any_weights(&mut trials.rng, 2 * bad.n - 5);
            for outer in 0..2 * bad.n - 4 {
                let got = trials.mesh(bad.n, outer, &bad.triangles);
                trials.equal(got, Err(bad.refusal), "every outer number");
            }
            let outer = place(&mut trials.rng, bad.n);
            trials.as_in_front(bad.n, outer, &bad.triangles, &weights);
            let outer = damage::no_place(&mut trials.rng, bad.n);
            trials.mesh_refused(bad.n, outer, &bad.triangles, Refusal::plain(21));
        }
    }
}
