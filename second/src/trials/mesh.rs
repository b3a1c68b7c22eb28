//! Tests of the mesh check: rows 1 to 8, 21 and 25, every mesh on 3 vertices,
//! changed spheres and damaged meshes. What is wanted comes from the papers, from
//! the slow check, or from the way a mesh was damaged. The other calls on a mesh
//! have to refuse a damaged one alike.

use super::{refused, sizes, Trials, WrongLength, FILL, WRONG_N};
use crate::shells::{ROWS, TETRA};
use crate::spheres::{place, sphere};
use crate::{damage, mesh, naive, Answer, Refusal, Work};

impl Trials {
    pub(super) fn mesh(&mut self, n: usize, outer: usize, triangles: &[u16]) -> Answer<()> {
        let mut scratch = vec![FILL; sizes(n).scratch];
        let answer = mesh::check(&mut self.work, n, outer, triangles, &mut scratch);
        self.settle(&answer, &scratch);
        answer
    }

    /// Every call on a mesh refuses this one so, whatever weights or
    /// coordinates come with it.
    pub(super) fn mesh_refused(&mut self, n: usize, outer: usize, t: &[u16], refusal: Refusal) {
        let heavy = vec![i64::MIN; 2 * n - 5];
        let got = self.mesh(n, outer, t);
        self.equal(got, Err(refusal), "mesh check");
        let got = self.labels(n, outer, t);
        self.equal(got, Err(refusal), "labels, by the mesh check");
        let got = self.forward(n, outer, t, &heavy);
        self.equal(got, Err(refusal), "forward, by the mesh check");
        let got = self.range(n, outer, t, [&heavy, &heavy]).map(|_| ());
        self.equal(got, Err(refusal), "range, by the mesh check");
        let got = self.backward(n, outer, t, &vec![i64::MAX; 3 * n]);
        self.equal(got, Err(refusal), "backward, by the mesh check");
        let (got, ..) = self.repair(n, outer, t, &heavy);
        self.equal(got, Err(refusal), "repair, by the mesh check");
    }
}

/// Row 1, before 21, and the meshes of rows 3 to 8 and 25.
pub(super) fn table(trials: &mut Trials) {
    for n in WRONG_N {
        let got = trials.mesh(n, usize::MAX, &TETRA);
        trials.equal(got, refused(1), "1, mesh check");
    }
    for (refusal, n, t) in ROWS {
        for outer in 0..2 * n - 4 {
            trials.mesh_refused(n, outer, t, refusal);
        }
    }
}

/// Row 2 for each slice, with a broken mesh and outer number besides.
pub(super) fn lengths(trials: &mut Trials) {
    for wrong in WrongLength::all(2) {
        let (n, s) = (wrong.n, sizes(wrong.n));
        let t = vec![9; wrong.of(0, s.triangles)];
        let mut scratch = vec![FILL; wrong.of(1, s.scratch)];
        let (work, outer) = (&mut Work::default(), usize::MAX);
        let answer = mesh::check(work, n, outer, &t, &mut scratch);
        trials.equal(answer, refused(2), "2, mesh check");
        trials.settle(&answer, &scratch);
    }
}

/// The mesh check against the slow one.
fn by_slow_check(trials: &mut Trials, n: usize, outer: usize, t: &[u16], what: &str) {
    let wanted = naive::refusal(n, outer, t).map_or(Ok(()), Err);
    let got = trials.mesh(n, outer, t);
    trials.equal(got, wanted, what);
}

/// Every mesh on 3 vertices with vertex numbers 0 to 3, with the outer numbers 0
/// to 2.
pub(super) fn on_three_vertices(trials: &mut Trials) {
    for code in 0..1 << 12 {
        let t: Vec<u16> = (0..6).map(|i| code >> (2 * i) & 3).collect();
        for outer in 0..3 {
            by_slow_check(trials, 3, outer, &t, "mesh on 3 vertices");
        }
    }
}

/// Spheres with a few numbers changed, and any triples.
pub(super) fn changed(trials: &mut Trials) {
    for _ in 0..20 * trials.rounds {
        let rng = &mut trials.rng;
        let n = 3 + rng.below(6);
        let mut t = sphere(rng, n);
        for _ in 0..rng.below(4) {
            let at = rng.below(t.len());
            match rng.below(4) {
                0 => t[at] = rng.below(n) as u16,
                1 => t[at] = t[rng.below(3 * n - 6)],
                2 => t.swap(at, rng.below(3 * n - 6)),
                _ => {
                    let (a, b) = (at / 3 * 3, rng.below(2 * n - 4) * 3);
                    for i in 0..3 {
                        t.swap(a + i, b + i);
                    }
                }
            }
        }
        if rng.chance(10) {
            t.fill_with(|| rng.below(n + rng.0 as usize % 2) as u16);
        }
        let outer = rng.below(2 * n - 3);
        by_slow_check(trials, n, outer, &t, "mesh, any triples");
    }
}

/// Spheres, and meshes damaged for each of rows 3 to 8 and 25.
pub(super) fn damaged(trials: &mut Trials) {
    for round in 0..trials.rounds {
        let n = trials.size_in(round, 4096);
        let t = sphere(&mut trials.rng, n);
        let outer = place(&mut trials.rng, n);
        let got = trials.mesh(n, outer, &t);
        trials.equal(got, Ok(()), "a sphere");
        for number in damage::MESH_NUMBERS {
            let bad = damage::mesh(&mut trials.rng, number, n);
            let outer = place(&mut trials.rng, bad.n);
            if bad.n <= 60 {
                let slow = naive::refusal(bad.n, outer, &bad.triangles);
                trials.equal(slow, Some(bad.refusal), "damaged mesh, slow check");
            }
            if bad.n <= 4096 {
                trials.mesh_refused(bad.n, outer, &bad.triangles, bad.refusal);
            }
        }
    }
}
