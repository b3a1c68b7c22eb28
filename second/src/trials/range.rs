//! Tests of the forward map of ranges: ranges worked out by hand, rows 1, 2, 29 and
//! 9 with their order, and random spheres. What is wanted comes from document 02:
//! no weight list within the ranges passes an end, the lows and the highs reach
//! them, narrower ranges never widen a result, and with lows of 1 or more no
//! triangle is flat or turned; up to 40 vertices from the slow range too, and up to
//! 6 from every list of ends. That the mesh check refuses alike is tested in `mesh`.

use super::{refused, sizes, Trials, WrongLength, FILL, WRONG_N};
use crate::shells::{ranges as by_hand, ROWS, TETRA};
use crate::spheres::{moved, place, ranges, sphere, within};
use crate::{damage, maps, naive, Answer, Work};

impl Trials {
    /// The low and the high coordinates.
    pub(super) fn range(
        &mut self,
        n: usize,
        outer: usize,
        triangles: &[u16],
        ranges: [&[i64]; 2],
    ) -> Answer<[Vec<i64>; 2]> {
        let mut scratch = vec![FILL; sizes(n).scratch];
        let [mut low, mut high] = [(); 2].map(|_| vec![FILL; sizes(n).coordinates]);
        let (work, out) = (&mut self.work, [&mut low[..], &mut high[..]]);
        let answer = maps::forward_range(work, n, outer, triangles, ranges, out, &mut scratch);
        self.settle(&answer, &scratch);
        if answer.is_err() {
            let ok = low.iter().chain(&high).all(|&x| x == FILL);
            self.untouched(ok, "range");
        }
        answer.map(|()| [low, high])
    }
}

/// Both lists of ranges.
fn both([lows, highs]: &[Vec<i64>; 2]) -> [&[i64]; 2] {
    [lows, highs]
}

/// The ranges worked out by hand, the first triangle of each mesh moved to every
/// place.
pub(super) fn checked(trials: &mut Trials) {
    for known in by_hand() {
        let n = known.n;
        for outer in 0..2 * n - 4 {
            let t = moved(known.triangles, 0, outer);
            let got = trials.range(n, outer, &t, [&known.lows, &known.highs]);
            trials.equal(got, known.answer.clone(), "ranges by hand");
        }
    }
}

/// Row 1, and the order of 21, 29 and the rows of the mesh; 29 and 9 are among the
/// ranges worked out by hand.
pub(super) fn table(trials: &mut Trials) {
    let (above, below): (&[i64], &[i64]) = (&[1; 3], &[0; 3]);
    for n in WRONG_N {
        let got = trials.range(n, usize::MAX, &TETRA, [above, below]);
        trials.equal(got, refused(1), "1, range");
    }
    let got = trials.range(4, 4, &TETRA, [above, below]);
    trials.equal(got, refused(21), "21 before 29");
    for (_, n, t) in ROWS {
        let [mut lows, highs] = [(); 2].map(|_| vec![i64::MIN; 2 * n - 5]);
        for place in [0, n - 3, 2 * n - 6] {
            lows[place] += 1;
            let got = trials.range(n, 2 * n - 5, t, [&lows, &highs]);
            trials.equal(got, refused(29), "29 before the mesh");
            lows[place] -= 1;
        }
    }
}

/// Row 2 for each slice, with a broken mesh, outer number and range besides.
pub(super) fn lengths(trials: &mut Trials) {
    for wrong in WrongLength::all(6) {
        let (n, s) = (wrong.n, sizes(wrong.n));
        let t = vec![9; wrong.of(0, s.triangles)];
        let mut scratch = vec![FILL; wrong.of(1, s.scratch)];
        let lows = vec![FILL; wrong.of(2, s.weights)];
        let highs = vec![0; wrong.of(3, s.weights)];
        let mut low = vec![FILL; wrong.of(4, s.coordinates)];
        let mut high = vec![FILL; wrong.of(5, s.coordinates)];
        let (work, outer) = (&mut Work::default(), usize::MAX);
        let (weights, out) = ([&lows[..], &highs], [&mut low[..], &mut high]);
        let answer = maps::forward_range(work, n, outer, &t, weights, out, &mut scratch);
        trials.equal(answer, refused(2), "2, range");
        trials.settle(&answer, &scratch);
        trials.untouched(low.iter().chain(&high).all(|&x| x == FILL), "range");
    }
}

/// Whether each number is from its low to its high.
fn inside(ends: &[Vec<i64>; 2], list: &[i64]) -> bool {
    let [lows, highs] = ends;
    let mut each = lows.iter().zip(highs).zip(list);
    list.len() == lows.len() && each.all(|((low, high), x)| low <= x && x <= high)
}

/// Random spheres and ranges.
pub(super) fn random(trials: &mut Trials) {
    let (mut narrowed, mut upright) = (0, 0);
    for round in 0..4 * trials.rounds {
        let n = trials.size_in(round, 4096);
        let t = sphere(&mut trials.rng, n);
        let outer = place(&mut trials.rng, n);
        let labels = trials.labels(n, outer, &t).unwrap_or_default();
        let corners = naive::by_label(outer, &t, &labels);
        let given = ranges(&mut trials.rng, 2 * n - 5);
        let got = trials.range(n, outer, &t, both(&given));
        let ends = got.clone().unwrap_or_default();

        // The lows and the highs reach the ends; they are within the ranges.
        for (list, end) in given.iter().zip(&ends) {
            let drawn = trials.forward(n, outer, &t, list);
            trials.equal(drawn.as_ref(), Ok(end), "an end is reached");
        }
        // No list within passes an end.
        for _ in 0..4 {
            let list = within(&mut trials.rng, both(&given));
            let Ok(drawn) = trials.forward(n, outer, &t, &list) else {
                continue;
            };
            trials.check(inside(&ends, &drawn), || {
                format!("an end is passed, n = {n}")
            });
            if given[0].iter().all(|&low| low >= 1) {
                let areas = naive::areas(&corners, &drawn);
                let ok = areas.iter().all(|&d| d > 0);
                trials.check(ok, || format!("flat or turned within ranges, n = {n}"));
                upright += 1;
            }
        }
        // Narrower ranges never widen a result.
        let lists = [(); 2].map(|_| within(&mut trials.rng, both(&given)));
        let narrow = [0, 1].map(|end| -> Vec<i64> {
            let pairs = lists[0].iter().zip(&lists[1]);
            pairs.map(|(&a, &b)| [a.min(b), a.max(b)][end]).collect()
        });
        if let Ok(result) = trials.range(n, outer, &t, both(&narrow)) {
            let ok = result.iter().all(|end| inside(&ends, end));
            trials.check(ok, || format!("narrower ranges, n = {n}"));
            narrowed += 1;
        }
        if n <= 40 {
            let slow = naive::Labelled::new(n, outer, &t, &labels);
            trials.equal(got, Ok(slow.range(&given[0], &given[1])), "range, slow");
            if n <= 6 {
                every_list_of_ends(trials, &slow, &given, &ends);
            }
        }
    }
    trials.check(narrowed > 0 && upright > 0, || {
        format!("{narrowed} narrower ranges, {upright} drawings with lows of 1 or more")
    });
}

/// The least and the most of each coordinate over all lists whose weights are ends
/// of their ranges, by the slow forward map. A coordinate is linear in each weight, so
/// no other list passes these.
fn every_list_of_ends(
    trials: &mut Trials,
    slow: &naive::Labelled,
    given: &[Vec<i64>; 2],
    ends: &[Vec<i64>; 2],
) {
    let len = given[0].len();
    let list = |code: usize| -> Vec<i64> { (0..len).map(|t| given[code >> t & 1][t]).collect() };
    let drawn: Vec<Vec<i64>> = (0..1 << len)
        .map(|code| slow.forward(&list(code)))
        .collect();
    for k in 0..ends[0].len() {
        let at = drawn.iter().map(|b| b[k]);
        let found = (at.clone().min(), at.max());
        let wanted = (Some(ends[0][k]), Some(ends[1][k]));
        trials.equal(found, wanted, "every list of ends");
    }
}

/// Ranges that 29 and 9 refuse, on spheres and on damaged meshes, with outer numbers
/// that are places and others: the first row counts, by the slow refusals too.
pub(super) fn refused_ranges(trials: &mut Trials) {
    for round in 0..trials.rounds {
        for number in damage::MESH_NUMBERS {
            let n = trials.size_in(round, 40);
            let rng = &mut trials.rng;
            let sound = sphere(rng, n.max(8));
            let bad = damage::mesh(rng, number, n);
            let meshes = [
                (n.max(8), sound, Ok(())),
                (bad.n, bad.triangles, Err(bad.refusal)),
            ];
            for (n, t, checked) in meshes {
                refused_on(trials, n, &t, checked);
            }
        }
    }
}

/// Every kind of ranges on a mesh that the mesh check answers so.
fn refused_on(trials: &mut Trials, n: usize, t: &[u16], checked: Answer<()>) {
    let rng = &mut trials.rng;
    let (here, nowhere) = (place(rng, n), damage::no_place(rng, n));
    let good = ranges(rng, 2 * n - 5);
    let crossed = damage::crossed(rng, good.clone());
    let heavy = damage::heavy_range(rng, good.clone());
    let worst = damage::crossed(rng, heavy.clone());
    for (given, wanted) in [
        (good, checked),
        (crossed, refused(29)),
        (heavy, checked.and(refused(9))),
        (worst, refused(29)),
    ] {
        for (outer, wanted) in [(here, wanted), (nowhere, refused(21))] {
            let got = trials.range(n, outer, t, both(&given)).map(|_| ());
            trials.equal(got, wanted, "refused ranges");
            let slow = naive::range_refusal(n, outer, t, &given[0], &given[1]);
            trials.equal(slow.map_or(Ok(()), Err), wanted, "refused ranges, slow");
        }
    }
}
