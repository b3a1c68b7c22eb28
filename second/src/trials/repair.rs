//! Tests of repair: P6 to P8 and more repairs worked out by hand, rows 1, 2, 9
//! and 13, and random spheres. What is wanted comes from the papers, from the
//! slow repair (with the slow forward map up to 24 vertices, with the fast one up
//! to 150 and once on 500), and from what holds after every repair. The refusals
//! of the mesh check are tested in `mesh`, random weights that rows 9 and 13
//! refuse in `maps::refused_numbers`.

use super::{refused, sizes, Trials, WrongLength, FILL, WRONG_N};
use crate::shells::{repairs, stopped, TETRA};
use crate::spheres::{any_weights, moved, place, sphere, weights, KINDS};
use crate::{damage, maps, naive, repair, Answer, Extra, Work, LIMIT};

impl Trials {
    /// Answer, weights and coordinates after.
    pub(super) fn repair(
        &mut self,
        n: usize,
        outer: usize,
        triangles: &[u16],
        weights: &[i64],
    ) -> (Answer<usize>, Vec<i64>, Vec<i64>) {
        let mut scratch = vec![FILL; sizes(n).scratch];
        let mut out = vec![FILL; sizes(n).coordinates];
        let mut new = weights.to_vec();
        let work = &mut self.work;
        let answer = repair::repair(work, n, outer, triangles, &mut new, &mut out, &mut scratch);
        self.settle(&answer, &scratch);
        if matches!(answer, Err(refusal) if refusal.number != 13) {
            let ok = new == weights && out.iter().all(|&x| x == FILL);
            self.untouched(ok, "repair");
        }
        (answer, new, out)
    }
}

/// The areas of P6 and of P8, whose weights are all below 0, and the repairs worked
/// out by hand, the first triangle of each mesh moved to every place.
pub(super) fn checked(trials: &mut Trials) {
    let corners = naive::by_label(0, &TETRA, &[0, 1, 2].repeat(3));
    for (weights, areas, what) in [
        ([5, 3, -1], vec![35, 21, -7], "P6, areas"),
        ([-1; 3], vec![3; 3], "P8, areas"),
    ] {
        let b = trials.forward(4, 0, &TETRA, &weights).unwrap_or_default();
        trials.equal(naive::areas(&corners, &b), areas, what);
    }
    for repair in repairs() {
        let n = repair.n;
        for outer in 0..2 * n - 4 {
            let t = moved(repair.triangles, 0, outer);
            let got = trials.repair(n, outer, &t, &repair.weights);
            let wanted = (
                repair.answer,
                repair.left.clone(),
                repair.coordinates.clone(),
            );
            trials.equal(got, wanted, "by hand");
            let labels = trials.labels(n, outer, &t).unwrap_or_default();
            let slow = naive::Labelled::new(n, outer, &t, &labels);
            let mut new = repair.weights.clone();
            let (raises, ended) = slow.repair(&mut new);
            let got = counted(&raises, ended);
            trials.equal(
                (got, new),
                (repair.answer, repair.left.clone()),
                "by hand, slow",
            );
        }
    }
}

/// The answer of the slow repair.
fn counted(raises: &[naive::Raise], ended: bool) -> Answer<usize> {
    let count = raises.len();
    if ended {
        stopped(count)
    } else {
        Ok(count)
    }
}

/// Rows 1 and 9; 13 is among the repairs worked out by hand.
pub(super) fn table(trials: &mut Trials) {
    for n in WRONG_N {
        let (got, ..) = trials.repair(n, usize::MAX, &TETRA, &[1, 1, 1]);
        trials.equal(got, refused(1), "1, repair");
    }
    let (got, ..) = trials.repair(4, 0, &TETRA, &[LIMIT, 1, 0]);
    trials.equal(got, refused(9), "9, repair");
}

/// Row 2 for each slice, with a broken mesh and outer number besides.
pub(super) fn lengths(trials: &mut Trials) {
    for wrong in WrongLength::all(4) {
        let (n, s) = (wrong.n, sizes(wrong.n));
        let t = vec![9; wrong.of(0, s.triangles)];
        let mut scratch = vec![FILL; wrong.of(1, s.scratch)];
        let w = vec![FILL; wrong.of(2, s.weights)];
        let b = vec![FILL; wrong.of(3, s.coordinates)];
        let (mut new, mut out) = (w.clone(), b.clone());
        let (work, outer) = (&mut Work::default(), usize::MAX);
        let answer = repair::repair(work, n, outer, &t, &mut new, &mut out, &mut scratch);
        trials.settle(&answer, &scratch);
        trials.equal((answer, new, out), (refused(2), w, b), "2, repair");
    }
}

/// Random weights that row 13 refuses before any raise: the first one where N is
/// below 1, and else one like all others. Every vertex is drawn in a corner.
pub(super) fn no_raise(trials: &mut Trials, n: usize, outer: usize, t: &[u16]) {
    let stuck = damage::stuck(&mut trials.rng, 2 * n - 5);
    let total: i64 = stuck.iter().sum();
    let (got, new, b) = trials.repair(n, outer, t, &stuck);
    trials.equal((got, new), (stopped(0), stuck), "13 before any raise");
    let on_corners = b.chunks(3).all(|b| {
        let of = |value| b.iter().filter(|&&x| x == value).count();
        of(total) == 1 && of(0) == 2
    });
    trials.check(on_corners, || format!("13, coordinates, n = {n}"));
}

/// Random spheres, with weights of every kind.
pub(super) fn random(trials: &mut Trials) {
    for round in 0..trials.rounds {
        let n = match round {
            2 => 500,
            _ => trials.size_in(round, 4096),
        };
        let t = sphere(&mut trials.rng, n);
        let outer = place(&mut trials.rng, n);
        let labels = trials.labels(n, outer, &t).unwrap_or_default();
        let corners = naive::by_label(outer, &t, &labels);
        let slow = (n <= 24).then(|| naive::Labelled::new(n, outer, &t, &labels));
        for kind in KINDS {
            let w = weights(&mut trials.rng, kind, 2 * n - 5).unwrap_or_default();
            let repaired = trials.repair(n, outer, &t, &w);
            after(trials, (n, outer, &t, &corners), &w, &repaired);
            let mut new = w.clone();
            let (raises, ended) = if let Some(slow) = &slow {
                slow.repair(&mut new)
            } else if n <= 150 || round == 2 {
                by_fast_forward(n, outer, &t, &corners, &mut new)
            } else {
                continue;
            };
            as_slow(trials, n, &repaired, (&raises, ended), &new);
        }
        // A state after a repair needs no further one.
        let w = any_weights(&mut trials.rng, 2 * n - 5);
        if let (Ok(_), new, b) = trials.repair(n, outer, &t, &w) {
            let again = trials.repair(n, outer, &t, &new);
            trials.equal(again, (Ok(0), new, b), "repair of a repair");
        }
    }
}

/// What N can be before a repair, and what can become of the first raise.
const FIRST_RAISE: [&str; 6] = [
    "N = 1",
    "N = 0, first triangle upright",
    "N below 1, own raise larger than 1 - N",
    "N below 1, own raise smaller than 1 - N",
    "N below 1, first raise refused",
    "N below 1, no triangle flat or turned",
];

/// Small random spheres with weights whose total is often 1 or less: each case of
/// the first raise is met.
pub(super) fn first_raises(trials: &mut Trials) {
    let mut met = [false; FIRST_RAISE.len()];
    for _ in 0..50 * trials.rounds {
        let n = 3 + trials.rng.below(8);
        let t = sphere(&mut trials.rng, n);
        let outer = place(&mut trials.rng, n);
        let labels = trials.labels(n, outer, &t).unwrap_or_default();
        let slow = naive::Labelled::new(n, outer, &t, &labels);
        let corners = naive::by_label(outer, &t, &labels);
        let kind = ["balanced", "balanced", "negative", "heavy", "full"][trials.rng.below(5)];
        let w = weights(&mut trials.rng, kind, 2 * n - 5).unwrap_or_default();
        let b = trials.forward(n, outer, &t, &w).unwrap_or_default();
        let repaired = trials.repair(n, outer, &t, &w);
        after(trials, (n, outer, &t, &corners), &w, &repaired);
        let mut new = w.clone();
        let (raises, ended) = slow.repair(&mut new);
        as_slow(trials, n, &repaired, (&raises, ended), &new);

        let total: i64 = w.iter().sum();
        let own = naive::own_raise(&corners[0], &b);
        let areas = naive::areas(&corners, &b);
        let low = total < 1;
        let cases = [
            total == 1,
            total == 0 && areas[0] > 0,
            low && own > 1 - total,
            low && own < 1 - total,
            low && repaired.0 == stopped(0),
            low && areas.iter().all(|&d| d > 0),
        ];
        for (met, case) in met.iter_mut().zip(cases) {
            *met |= case;
        }
    }
    for (met, case) in met.into_iter().zip(FIRST_RAISE) {
        trials.check(met, || format!("never met: {case}"));
    }
}

/// The slow repair with the fast forward map.
fn by_fast_forward(
    n: usize,
    outer: usize,
    t: &[u16],
    corners: &[naive::Triple],
    weights: &mut [i64],
) -> (Vec<naive::Raise>, bool) {
    let work = &mut Work::default();
    let mut scratch = vec![0; sizes(n).scratch];
    naive::repair_by(corners, weights, |w| {
        let mut b = vec![0; 3 * n];
        let answer = maps::forward(work, n, outer, t, w, &mut b, &mut scratch);
        assert!(answer.is_ok(), "weights pass 9 throughout");
        b
    })
}

/// Answer and weights of a repair are those of the slow one, which raised no
/// triangle twice.
fn as_slow(
    trials: &mut Trials,
    n: usize,
    (answer, new, _): &(Answer<usize>, Vec<i64>, Vec<i64>),
    (raises, ended): (&[naive::Raise], bool),
    slow: &[i64],
) {
    let wanted = counted(raises, ended);
    trials.equal((*answer, &new[..]), (wanted, slow), "repair, slow and fast");
    let mut places: Vec<usize> = raises.iter().map(|r| r.0).collect();
    places.sort_unstable();
    places.dedup();
    let once = places.len() == raises.len() && raises.iter().all(|r| r.1 >= 1);
    trials.check(once, || format!("a triangle raised twice, n = {n}"));
}

/// What holds after any repair of accepted weights w: no weight is lower, the
/// coordinates are those of the new weights, N is 1 or more and no triangle is
/// left to raise or row 13 refuses the next raise, and the count is that of the
/// changed weights. Only a refused first raise leaves N below 1.
fn after(
    trials: &mut Trials,
    (n, outer, t, corners): (usize, usize, &[u16], &[naive::Triple]),
    w: &[i64],
    (answer, new, b): &(Answer<usize>, Vec<i64>, Vec<i64>),
) {
    let changed = w.iter().zip(new).filter(|(a, b)| a != b).count();
    let lowered = w.iter().zip(new).any(|(a, b)| a > b);
    trials.check(!lowered, || format!("a weight was lowered, n = {n}"));
    let drawn = trials.forward(n, outer, t, new);
    trials.equal(drawn.as_ref(), Ok(b), "coordinates after repair");
    let count = match *answer {
        Ok(count) => {
            let upright = naive::areas(corners, b).iter().all(|&d| d > 0);
            trials.check(upright, || format!("flat or turned after repair, n = {n}"));
            count
        }
        Err(refusal) => {
            let first = naive::first_raise(corners, w, b).filter(|_| changed == 0);
            let next = first.or_else(|| naive::next_raise(corners, b));
            let (t, step) = next.unwrap_or((0, 0));
            let mut next = new.clone();
            next[t] += step;
            let due = step > 0 && naive::too_heavy(&next);
            trials.check(due, || format!("13 too early, n = {n}"));
            match refusal.extra {
                Extra::Count(count) if refusal.number == 13 => count,
                _ => usize::MAX,
            }
        }
    };
    let total: i64 = new.iter().sum();
    let refused_first = answer.is_err() && count == 0;
    trials.check(total >= 1 || refused_first, || {
        format!("N = {total} after {count} raises, n = {n}")
    });
    let counted = count == changed && count <= 2 * n - 5;
    trials.check(counted, || {
        format!("{count} raises, {changed} changed, n = {n}")
    });
}
