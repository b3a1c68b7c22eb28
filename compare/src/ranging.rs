//! The forward map of ranges on random spheres and damaged meshes, with ranges of
//! every kind: accepted ones with equal ends, at the limits and with lows of 1 or
//! more among them, and those that 29 and 9 refuse; wrong lengths of each slice; and
//! the ranges worked out by hand, with the outer triangle at every place. Then that
//! both ends are what the forward call makes of the lows and of the highs.

use crate::meshes::{outer_number, stale, vertices};
use crate::tally::{told, Tally};
use second::shells::ranges;
use second::spheres::{self, moved, Rng};
use second::{damage, maps, Answer, Refusal, Sizes, Work};

/// Lows and highs.
type Ranges = [Vec<i64>; 2];

/// The slices that a call writes.
#[derive(Clone, PartialEq)]
struct Left {
    low: Vec<i64>,
    high: Vec<i64>,
    scratch: Vec<i64>,
}

impl Left {
    /// Of these lengths, and no two that hold the same.
    fn lent([low, high, scratch]: [usize; 3]) -> Left {
        Left {
            low: stale(low),
            high: stale(high + 1)[1..].to_vec(),
            scratch: stale(scratch),
        }
    }

    /// Of the lengths that go with n, or of any where it has none.
    fn fitting(n: usize) -> Left {
        let of = |sizes: Sizes| [sizes.coordinates, sizes.coordinates, sizes.scratch];
        Left::lent(Sizes::of(n).map_or([6, 6, 20], of))
    }
}

/// The proved call.
fn ours(n: usize, outer: usize, mesh: &[u16], ranges: &Ranges, left: &mut Left) -> Answer<()> {
    let [lows, highs] = ranges;
    let (low, high, scratch) = (&mut left.low, &mut left.high, &mut left.scratch);
    told(packmap::forward_range(
        n, outer, mesh, lows, highs, low, high, scratch,
    ))
}

/// Both calls on the same slices; what they left, where they are not refused.
fn one(
    tally: &mut Tally,
    work: &mut Work,
    n: usize,
    outer: usize,
    mesh: &[u16],
    ranges: &Ranges,
    lent: Left,
) -> Option<Left> {
    let (mut left, mut theirs) = (lent.clone(), lent);
    let answer = ours(n, outer, mesh, ranges, &mut left);
    let (low, high, scratch) = (&mut theirs.low, &mut theirs.high, &mut theirs.scratch);
    let [lows, highs] = ranges;
    let wanted = maps::forward_range(work, n, outer, mesh, [lows, highs], [low, high], scratch);
    tally.count(answer, answer == wanted && left == theirs, || {
        format!("n {n}, outer {outer}, {mesh:?}, {ranges:?}: {answer:?} and {wanted:?}")
    });
    answer.is_ok().then_some(left)
}

/// A call whose answer is known, and with it all that it leaves.
fn known(
    tally: &mut Tally,
    n: usize,
    outer: usize,
    mesh: &[u16],
    ranges: &Ranges,
    wanted: Answer<[Vec<i64>; 2]>,
) {
    let mut left = Left::fitting(n);
    let mut due = left.clone();
    let answer = ours(n, outer, mesh, ranges, &mut left);
    if !matches!(wanted, Err(Refusal { number: 1 | 2, .. })) {
        due.scratch.fill(0);
    }
    let number = wanted.map(|[low, high]| (due.low, due.high) = (low, high));
    tally.count(answer, answer == number && left == due, || {
        format!(
            "n {n}, outer {outer}, {mesh:?}, {ranges:?}: {answer:?}, and the answer is {number:?}"
        )
    });
}

/// The ranges worked out by hand.
fn by_hand(tally: &mut Tally) {
    for case in ranges() {
        let given = [case.lows, case.highs];
        for outer in 0..2 * case.n - 4 {
            let mesh = moved(case.triangles, 0, outer);
            known(tally, case.n, outer, &mesh, &given, case.answer.clone());
        }
    }
}

/// Of several rows that refuse the slices the first counts: 1, 2, 21, 29, those of the
/// mesh, 9. `last` is the mesh's refusal, or 9 where it has none.
fn order(tally: &mut Tally, rng: &mut Rng, n: usize, mesh: &[u16], last: Refusal) {
    let good = spheres::ranges(rng, 2 * n - 5);
    let heavy = damage::heavy_range(rng, good.clone());
    let crossed = damage::crossed(rng, good);
    let worst = damage::crossed(rng, heavy.clone());
    let (here, nowhere) = (rng.below(2 * n - 4), damage::no_place(rng, n));
    let [one, two, none, range] = [1, 2, 21, 29].map(Refusal::plain);
    for (given, first) in [(heavy, last), (crossed, range), (worst, range)] {
        known(tally, n, here, mesh, &given, Err(first));
        known(tally, n, nowhere, mesh, &given, Err(none));
        known(tally, n, nowhere, &mesh[1..], &given, Err(two));
        known(tally, 2, nowhere, mesh, &given, Err(one));
    }
}

/// Each of the six slices an item short, and one too long, with ranges that other
/// rows may refuse.
fn wrong_lengths(tally: &mut Tally, work: &mut Work, n: usize, mesh: &[u16], ranges: &Ranges) {
    for slice in 0..6 {
        for longer in [false, true] {
            let of = |k: usize, len: usize| match (k == slice, longer) {
                (false, _) => len,
                (true, false) => len - 1,
                (true, true) => len + 1,
            };
            let cut = |list: &[i64], len: usize| -> Vec<i64> {
                list.iter().copied().chain([0]).take(len).collect()
            };
            let triangles = mesh.iter().copied().chain([0]);
            let mesh: Vec<u16> = triangles.take(of(0, mesh.len())).collect();
            let given = [
                cut(&ranges[0], of(1, 2 * n - 5)),
                cut(&ranges[1], of(2, 2 * n - 5)),
            ];
            let lent = Left::lent([of(3, 3 * n), of(4, 3 * n), of(5, 10 * n)]);
            one(tally, work, n, 0, &mesh, &given, lent);
        }
    }
}

/// The forward call on the lows and on the highs makes both ends.
fn ends(tally: &mut Tally, n: usize, outer: usize, mesh: &[u16], ranges: &Ranges, left: Left) {
    let mut scratch = left.scratch;
    for (weights, end) in ranges.iter().zip([left.low, left.high]) {
        let mut drawn = stale(3 * n);
        let answer = told(packmap::forward(
            n,
            outer,
            mesh,
            weights,
            &mut drawn,
            &mut scratch,
        ));
        tally.count(answer, answer.is_ok() && drawn == end, || {
            format!("n {n}, outer {outer}, {mesh:?}, {weights:?}: the end is not reached")
        });
    }
}

pub fn run(count: usize, seed: u64) -> Tally {
    let mut rng = Rng(seed);
    let mut work = Work::default();
    let mut tally = Tally::new("range", &[0, 1, 2, 21, 29, 3, 4, 5, 6, 7, 25, 8, 9]);
    by_hand(&mut tally);
    for round in 0..count {
        let n = if round < 2 { 4096 } else { vertices(&mut rng) };
        let mesh = spheres::sphere(&mut rng, n);
        let outer = outer_number(&mut rng, n);
        let good = spheres::ranges(&mut rng, 2 * n - 5);
        let given = match rng.below(8) {
            0 => damage::crossed(&mut rng, good),
            1 => damage::heavy_range(&mut rng, good),
            _ => good,
        };
        let lent = Left::fitting(n);
        if let Some(left) = one(&mut tally, &mut work, n, outer, &mesh, &given, lent) {
            ends(&mut tally, n, outer, &mesh, &given, left);
        }
        if rng.chance(16) {
            order(&mut tally, &mut rng, n, &mesh, Refusal::plain(9));
            wrong_lengths(&mut tally, &mut work, n, &mesh, &given);
            let number = damage::MESH_NUMBERS[rng.below(7)];
            let bad = damage::mesh(&mut rng, number, n.min(40));
            order(&mut tally, &mut rng, bad.n, &bad.triangles, bad.refusal);
            let given = spheres::ranges(&mut rng, 2 * bad.n - 5);
            let (other, lent) = (outer_number(&mut rng, bad.n), Left::fitting(bad.n));
            one(
                &mut tally,
                &mut work,
                bad.n,
                other,
                &bad.triangles,
                &given,
                lent,
            );
        }
    }
    tally
}
