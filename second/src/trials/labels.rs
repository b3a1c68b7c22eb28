//! Tests of the labels: P1 to P3, rows 1 and 2, and random spheres against the
//! local rules of a labelling and, up to 80 vertices, against the slow peeling.
//! The refusals of the mesh check are tested in `mesh`.

use super::{refused, sizes, Trials, WrongLength, FILL, FILL_BYTE, WRONG_N};
use crate::shells::{FIVE, PAIR, TETRA};
use crate::spheres::{moved, place, sphere};
use crate::{labels, naive, Answer, Work};
use std::collections::HashMap;

impl Trials {
    pub(super) fn labels(&mut self, n: usize, outer: usize, triangles: &[u16]) -> Answer<Vec<u8>> {
        let mut scratch = vec![FILL; sizes(n).scratch];
        let mut out = vec![FILL_BYTE; sizes(n).labels];
        let work = &mut self.work;
        let answer = labels::labels(work, n, outer, triangles, &mut out, &mut scratch);
        self.settle(&answer, &scratch);
        if answer.is_err() {
            self.untouched(out.iter().all(|&x| x == FILL_BYTE), "labels");
        }
        answer.map(|()| out)
    }
}

/// P1 to P3.
pub(super) fn checked(trials: &mut Trials) {
    let got = trials.labels(3, 0, &PAIR);
    trials.equal(got, Ok(vec![0, 1, 2]), "P1");
    let got = trials.labels(4, 0, &TETRA);
    trials.equal(got, Ok([0, 1, 2].repeat(3)), "P2");
    let got = trials.labels(5, 0, &FIVE);
    let wanted = vec![0, 1, 2, 0, 1, 2, 0, 1, 2, 1, 2, 0, 2, 0, 1];
    trials.equal(got, Ok(wanted), "P3");
}

/// Row 1, before 21.
pub(super) fn table(trials: &mut Trials) {
    for n in WRONG_N {
        let got = trials.labels(n, usize::MAX, &TETRA);
        trials.equal(got, refused(1), "1, labels");
    }
}

/// Row 2 for each slice, with a broken mesh and outer number besides.
pub(super) fn lengths(trials: &mut Trials) {
    for wrong in WrongLength::all(3) {
        let (n, s) = (wrong.n, sizes(wrong.n));
        let t = vec![9; wrong.of(0, s.triangles)];
        let mut scratch = vec![FILL; wrong.of(1, s.scratch)];
        let mut out = vec![FILL_BYTE; wrong.of(2, s.labels)];
        let (work, outer) = (&mut Work::default(), usize::MAX);
        let answer = labels::labels(work, n, outer, &t, &mut out, &mut scratch);
        trials.equal(answer, refused(2), "2, labels");
        trials.settle(&answer, &scratch);
        trials.untouched(out.iter().all(|&x| x == FILL_BYTE), "labels");
    }
}

/// Random spheres.
pub(super) fn random(trials: &mut Trials) {
    for round in 0..2 * trials.rounds {
        let n = trials.size_in(round, 4096);
        let t = sphere(&mut trials.rng, n);
        let outer = place(&mut trials.rng, n);
        let got = trials.labels(n, outer, &t).unwrap_or_default();
        let front = moved(&t, outer, 0);
        let ok = got.len() == 3 * (2 * n - 5)
            && along_triangles(&got)
            && at_outer_vertices(&front, &got)
            && around_inner_vertices(n, &front, &got);
        trials.check(ok, || format!("label rules, n = {n}, outer {outer}, {t:?}"));
        if n <= 80 {
            let slow = naive::labels(n, outer, &t);
            trials.equal(got, slow, "labels, slow and fast");
        }
    }
}

/// Whether 0, 1, 2 follow each other along each inner triangle.
fn along_triangles(labels: &[u8]) -> bool {
    let along = |t: &[u8]| t[0] < 3 && t[1] == (t[0] + 1) % 3 && t[2] == (t[0] + 2) % 3;
    labels.chunks(3).all(along)
}

/// Whether every label at v_c is c; the outer triangle is the first.
fn at_outer_vertices(triangles: &[u16], labels: &[u8]) -> bool {
    let outer = [triangles[0], triangles[2], triangles[1]];
    let corners = triangles[3..].iter().zip(labels);
    corners
        .filter_map(|(v, &label)| Some((outer.iter().position(|x| x == v)?, label)))
        .all(|(c, label)| c == label as usize)
}

/// Whether each of 0, 1, 2 makes one nonempty run, in that order, around each
/// inner vertex; the outer triangle is the first.
fn around_inner_vertices(n: usize, triangles: &[u16], labels: &[u8]) -> bool {
    // For each triangle (v, a, b): from v and a to b and the label at v.
    let mut turn = HashMap::new();
    let mut start = vec![0; n];
    let mut degree = vec![0; n];
    for (t, at) in triangles.chunks(3).skip(1).zip(labels.chunks(3)) {
        for i in 0..3 {
            let (v, a, b) = (t[i], t[(i + 1) % 3], t[(i + 2) % 3]);
            turn.insert((v, a), (b, at[i]));
            start[v as usize] = a;
            degree[v as usize] += 1;
        }
    }
    let mut inner = (0..n).filter(|&v| !triangles[..3].contains(&(v as u16)));
    inner.all(|v| {
        let (mut a, mut changes) = (start[v], 0);
        for _ in 0..degree[v] {
            let (b, label) = turn[&(v as u16, a)];
            let (_, next) = turn[&(v as u16, b)];
            if next != label {
                changes += 1;
                if next != (label + 1) % 3 {
                    return false;
                }
            }
            a = b;
        }
        a == start[v] && changes == 3
    })
}
