//! Tests of the forward and the backward map: P4 and P5, rows 1, 2 and 9 to 12,
//! and random spheres. What is wanted comes from document 01, from the slow
//! maps up to 40 vertices, and from what holds for all maps: there and back,
//! sums, addition, the outer vertices' places. The refusals of the mesh check
//! are tested in `mesh`.

use super::{refused, sizes, Trials, WrongLength, FILL, WRONG_N};
use crate::shells::{FIVE, TETRA};
use crate::spheres::{any_weights, place, sphere, triangle, weights, KINDS};
use crate::{damage, maps, naive, Answer, Work, LIMIT};

impl Trials {
    pub(super) fn forward(
        &mut self,
        n: usize,
        outer: usize,
        triangles: &[u16],
        weights: &[i64],
    ) -> Answer<Vec<i64>> {
        let mut scratch = vec![FILL; sizes(n).scratch];
        let mut out = vec![FILL; sizes(n).coordinates];
        let work = &mut self.work;
        let answer = maps::forward(work, n, outer, triangles, weights, &mut out, &mut scratch);
        self.settle(&answer, &scratch);
        if answer.is_err() {
            self.untouched(out.iter().all(|&x| x == FILL), "forward");
        }
        answer.map(|()| out)
    }

    pub(super) fn backward(
        &mut self,
        n: usize,
        outer: usize,
        triangles: &[u16],
        b: &[i64],
    ) -> Answer<Vec<i64>> {
        let mut scratch = vec![FILL; sizes(n).scratch];
        let mut out = vec![FILL; sizes(n).weights];
        let work = &mut self.work;
        let answer = maps::backward(work, n, outer, triangles, b, &mut out, &mut scratch);
        self.settle(&answer, &scratch);
        if answer.is_err() {
            self.untouched(out.iter().all(|&x| x == FILL), "backward");
        }
        answer.map(|()| out)
    }
}

/// P4 and P5.
pub(super) fn checked(trials: &mut Trials) {
    let got = trials.forward(5, 0, &FIVE, &[1; 5]);
    let wanted = vec![5, 0, 0, 0, 5, 0, 0, 0, 5, 1, 1, 3, 2, 2, 1];
    trials.equal(got, Ok(wanted), "P4");

    let ten = vec![10, 0, 0, 0, 10, 0, 0, 0, 10, 3, 5, 2];
    let got = trials.forward(4, 0, &TETRA, &[5, 3, 2]);
    trials.equal(got, Ok(ten.clone()), "P5");
    let got = trials.backward(4, 0, &TETRA, &ten);
    trials.equal(got, Ok(vec![5, 3, 2]), "P5, back");
}

/// Rows 1, 2 and 9 to 12, with their limits and their order.
pub(super) fn table(trials: &mut Trials) {
    for n in WRONG_N {
        let got = trials.forward(n, usize::MAX, &TETRA, &[1, 1, 1]);
        trials.equal(got, refused(1), "1, forward");
        let got = trials.backward(n, usize::MAX, &TETRA, &[0; 12]);
        trials.equal(got, refused(1), "1, backward");
    }
    let l = LIMIT;
    let edge = vec![l, 0, 0, 0, l, 0, 0, 0, l, 0, l, 0];
    let cases = [
        (&[1, 1][..], refused(2), "2"),
        (&[l, 1, 0], refused(9), "9, forward"),
        (&[l, 0, 0], Ok(edge), "9 lets L itself through"),
    ];
    for (w, wanted, what) in cases {
        let got = trials.forward(4, 0, &TETRA, w);
        trials.equal(got, wanted, what);
    }
    // N, vertex 1 and vertex 3.
    let cases = [
        (9, [0, 9, 0], [l + 1, 0, 0], refused(10), "10"),
        (9, [1, 8, 0], [3, 5, 1], refused(11), "11"),
        (9, [0, 9, 0], [3, 5, 2], refused(12), "12"),
        (l, [0, l, 0], [1, l, -1], refused(9), "9, backward"),
        (l, [0, l, 0], [0, l, 0], Ok(vec![l, 0, 0]), "the limits"),
        (9, [1, 8, 0], [l + 1, 0, 0], refused(10), "10 before 11"),
        (9, [1, 8, 0], [3, 5, 2], refused(11), "11 before 12"),
        (l, [0, l, 0], [l, l, l], refused(12), "12 before 9"),
    ];
    for (total, v1, v3, wanted, what) in cases {
        let got = trials.backward(4, 0, &TETRA, &on_tetra(total, v1, v3));
        trials.equal(got, wanted, what);
    }
}

/// Coordinates on the tetra: v0 and v2 in their corners for a sum N of the
/// weights, vertices 1 and 3 as given.
pub(super) fn on_tetra(total: i64, v1: [i64; 3], v3: [i64; 3]) -> Vec<i64> {
    [[total, 0, 0], v1, [0, 0, total], v3].concat()
}

/// Row 2 for each slice, with a broken mesh and outer number besides.
pub(super) fn lengths(trials: &mut Trials) {
    for wrong in WrongLength::all(4) {
        let (n, s) = (wrong.n, sizes(wrong.n));
        let t = vec![9; wrong.of(0, s.triangles)];
        let mut scratch = vec![FILL; wrong.of(1, s.scratch)];
        let mut w = vec![FILL; wrong.of(2, s.weights)];
        let mut b = vec![FILL; wrong.of(3, s.coordinates)];
        let (work, outer) = (&mut Work::default(), usize::MAX);
        let forward = maps::forward(work, n, outer, &t, &w, &mut b, &mut scratch);
        trials.equal(forward, refused(2), "2, forward");
        trials.settle(&forward, &scratch);
        let backward = maps::backward(work, n, outer, &t, &b, &mut w, &mut scratch);
        trials.equal(backward, refused(2), "2, backward");
        trials.settle(&backward, &scratch);
        trials.untouched(w.iter().chain(&b).all(|&x| x == FILL), "maps");
    }
}

/// Both maps on random spheres, with weights of every kind.
pub(super) fn random(trials: &mut Trials) {
    let mut met = [false; 8];
    for round in 0..2 * trials.rounds {
        let n = trials.size_in(round, 4096);
        let t = sphere(&mut trials.rng, n);
        let outer = place(&mut trials.rng, n);
        let labels = trials.labels(n, outer, &t).unwrap_or_default();
        let corners = naive::by_label(outer, &t, &labels);
        let slow = (n <= 40).then(|| naive::Labelled::new(n, outer, &t, &labels));
        for kind in KINDS {
            let w = weights(&mut trials.rng, kind, 2 * n - 5).unwrap_or_default();
            let b = trials.forward(n, outer, &t, &w).unwrap_or_default();
            coordinates(trials, n, triangle(&t, outer), &w, &b);
            let back = trials.backward(n, outer, &t, &b);
            trials.equal(back.as_deref(), Ok(&w[..]), "weights there and back");
            if w.iter().all(|&w| w >= 1) {
                let upright = naive::areas(&corners, &b).iter().all(|&d| d > 0);
                trials.check(upright, || format!("positive weights, n = {n}, {t:?}"));
            }
            if let Some(slow) = &slow {
                trials.equal(&b, &slow.forward(&w), "forward, slow and fast");
                for choice in 0..2 {
                    trials.equal(&w, &slow.backward(&b, choice), "backward, slow");
                    let (cases, by_cases): (Vec<usize>, Vec<i64>) =
                        slow.by_cases(&b, choice).into_iter().unzip();
                    trials.equal(&w, &by_cases, "backward by eight cases");
                    cases.into_iter().for_each(|case| met[case] = true);
                }
            }
        }
        addition(trials, n, outer, &t);
        there_and_back(trials, n, outer, &t, slow.as_ref());
    }
    trials.equal(met, [true; 8], "each of the eight cases is met");
}

/// What holds for coordinates b of accepted weights w: sums, bounds and places
/// of the outer vertices, which are v0, v2, v1.
fn coordinates(trials: &mut Trials, n: usize, [v0, v2, v1]: [u16; 3], w: &[i64], b: &[i64]) {
    let total: i64 = w.iter().sum();
    let sums = b.chunks(3).all(|b| b.iter().sum::<i64>() == total);
    trials.check(sums && b.len() == 3 * n, || format!("sums, n = {n}"));
    let bounds = b.iter().all(|x| x.abs() <= LIMIT);
    trials.check(bounds, || format!("coordinates beyond L, n = {n}"));
    let at = |v: u16| &b[3 * v as usize..3 * v as usize + 3];
    let outer = at(v0) == [total, 0, 0] && at(v1) == [0, total, 0] && at(v2) == [0, 0, total];
    trials.check(outer, || format!("outer vertices, n = {n}"));
}

/// Coordinates of a sum of weights are the sums of the coordinates.
fn addition(trials: &mut Trials, n: usize, outer: usize, t: &[u16]) {
    let half = |list: Vec<i64>| -> Vec<i64> { list.iter().map(|w| w / 2).collect() };
    let w = half(any_weights(&mut trials.rng, 2 * n - 5));
    let x = half(any_weights(&mut trials.rng, 2 * n - 5));
    let add = |a: &[i64], b: &[i64]| -> Vec<i64> { a.iter().zip(b).map(|(a, b)| a + b).collect() };
    let one = trials.forward(n, outer, t, &w).unwrap_or_default();
    let two = trials.forward(n, outer, t, &x).unwrap_or_default();
    let both = trials.forward(n, outer, t, &add(&w, &x));
    trials.equal(both, Ok(add(&one, &two)), "addition");
}

/// Accepted coordinates give weights that give them back.
fn there_and_back(
    trials: &mut Trials,
    n: usize,
    outer: usize,
    t: &[u16],
    slow: Option<&naive::Labelled>,
) {
    // A weight is at most 6 times the largest coordinate.
    let most = LIMIT / (6 * (2 * n as i64 - 5));
    let rng = &mut trials.rng;
    let most = rng.within(0, most);
    let total = rng.within(-most, most);
    let [v0, v2, v1] = triangle(t, outer);
    let mut b = vec![];
    for v in 0..n as u16 {
        let (x, y) = match v {
            v if v == v0 => (total, 0),
            v if v == v1 => (0, total),
            v if v == v2 => (0, 0),
            _ => {
                let third = most / 3;
                (rng.within(-third, third), rng.within(-third, third))
            }
        };
        b.extend([x, y, total - x - y]);
    }
    // The third coordinate may be past `most`, but s does not use it.
    match trials.backward(n, outer, t, &b) {
        Err(refusal) => trials.check(false, || format!("backward refused: {refusal:?}")),
        Ok(w) => {
            if let Some(slow) = slow {
                trials.equal(&w, &slow.backward(&b, 0), "backward, slow and fast");
                let by_cases = slow.by_cases(&b, 0).into_iter().map(|(_, w)| w);
                trials.equal(&w, &by_cases.collect(), "eight cases, any coordinates");
            }
            let again = trials.forward(n, outer, t, &w);
            trials.equal(again, Ok(b), "coordinates there and back");
        }
    }
}

/// Weights and coordinates that rows 9 to 13 refuse, on random spheres.
pub(super) fn refused_numbers(trials: &mut Trials) {
    for _ in 0..2 * trials.rounds {
        let n = trials.size(300).max(4);
        let t = sphere(&mut trials.rng, n);
        let outer = place(&mut trials.rng, n);
        let heavy = damage::heavy(&mut trials.rng, 2 * n - 5);
        let got = trials.forward(n, outer, &t, &heavy);
        trials.equal(got, refused(9), "9, forward");
        let (got, ..) = trials.repair(n, outer, &t, &heavy);
        trials.equal(got, refused(9), "9, repair");
        super::repair::no_raise(trials, n, outer, &t);
        let w = any_weights(&mut trials.rng, 2 * n - 5);
        let good = trials.forward(n, outer, &t, &w).unwrap_or_default();
        for number in [10, 11, 12] {
            let bad = damage::coordinates(&mut trials.rng, number, triangle(&t, outer), &good);
            let got = trials.backward(n, outer, &t, &bad);
            trials.equal(got, refused(number), "coordinates");
        }
        let labels = trials.labels(n, outer, &t).unwrap_or_default();
        if n <= 40 {
            let slow = naive::Labelled::new(n, outer, &t, &labels);
            nine_or_weights(trials, n, outer, &t, good, &slow);
        }
    }
}

/// Coordinates that rows 10 to 12 let through, one inner vertex being moved
/// anywhere: row 9 exactly where the slow weights are past the limit.
fn nine_or_weights(
    trials: &mut Trials,
    n: usize,
    outer: usize,
    t: &[u16],
    mut b: Vec<i64>,
    slow: &naive::Labelled,
) {
    let rng = &mut trials.rng;
    let v = rng.below(n);
    if !triangle(t, outer).contains(&(v as u16)) {
        let total: i64 = b[3 * v..3 * v + 3].iter().sum();
        let (x, y) = (rng.within(-LIMIT, LIMIT), rng.within(-LIMIT, LIMIT));
        if (total - x - y).abs() <= LIMIT {
            b[3 * v..3 * v + 3].copy_from_slice(&[x, y, total - x - y]);
        }
    }
    let weights = slow.backward(&b, 1);
    let wanted = if naive::too_heavy(&weights) {
        refused(9)
    } else {
        Ok(weights)
    };
    let got = trials.backward(n, outer, t, &b);
    trials.equal(got, wanted, "9 by the backward map");
}
