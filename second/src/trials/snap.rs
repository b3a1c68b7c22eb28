//! Tests of snapping: P9 to P11, rows 1, 2 and 14 to 16, shares near every
//! power of two and every step and half step, random bits, and lists of drawn
//! points. Shares are held against exact integers (the slow reference) and
//! against doubles.

use super::{refused, sizes, Trials, WrongLength, FILL, WRONG_N};
use crate::spheres::Rng;
use crate::{damage, naive, snap, Answer, Extra, Refusal};

/// The whole number of a share by doubles: scaling up by a power of two is
/// exact, and so is rounding to a whole number.
fn by_doubles(share: f64, r: u32) -> i64 {
    (share * (1u64 << r) as f64).round_ties_even() as i64
}

impl Trials {
    pub(super) fn snap(&mut self, n: usize, scale: u32, points: &[f64]) -> Answer<Vec<i64>> {
        let mut out = vec![FILL; sizes(n).coordinates];
        let answer = snap::snap(n, scale, points, &mut out);
        self.hits[answer.err().map_or(0, |r| r.number) as usize] += 1;
        if answer.is_err() {
            self.untouched(out.iter().all(|&x| x == FILL), "snap");
        }
        answer.map(|()| out)
    }

    /// One share that is let through, by exact integers and by doubles.
    fn share(&mut self, share: f64, r: u32) {
        let got = snap::share(share, r);
        let ok = matches!(got, Ok(k) if naive::snapped(share, r, k) && k == by_doubles(share, r));
        self.check(ok, || format!("share {share:e} at {r}: {got:?}"));
    }
}

/// Row 16 with its share.
fn outside<T>(share: f64) -> Answer<T> {
    Err(Refusal {
        number: 16,
        extra: Extra::Share(share),
    })
}

/// P9 to P11.
pub(super) fn checked(trials: &mut Trials) {
    trials.equal(snap::share(0.5, 4), Ok(8), "P9");
    for r in 4..=24 {
        trials.equal(snap::share(-0.0, r), Ok(0), "P9, -0");
        let largest = -f64::from_bits(1);
        trials.equal(snap::share(largest, r), Ok(0), "P10");
    }
    trials.equal(snap::share(2.0, 24), Ok(33_554_432), "P11");
}

/// Rows 1, 2 and 14 to 16, and their order.
pub(super) fn table(trials: &mut Trials) {
    for n in WRONG_N {
        let got = trials.snap(n, 99, &[f64::NAN]);
        trials.equal(got, refused(1), "1, snap");
    }
    let points = [0.25; 8];
    let mut worse = points;
    worse[0] = f64::NAN;
    for scale in [1, 2, 3, 25, 26, 1 << 31, u32::MAX] {
        let got = trials.snap(4, scale, &points);
        trials.equal(got, refused(14), "14");
        let got = trials.snap(4, scale, &worse);
        trials.equal(got, refused(14), "14 before 15");
    }
    let mut points = points;
    points[2] = f64::INFINITY;
    let got = trials.snap(4, 0, &points);
    trials.equal(got, refused(15), "15");
    points[1] = 2.5;
    let got = trials.snap(4, 0, &points);
    trials.equal(got, outside(2.5), "16 before the next share's 15");
    let got = trials.snap(4, 0, &points[..7]);
    trials.equal(got, refused(2), "2, snap");
}

/// Row 2 for each slice, with a wrong scale and wrong shares besides.
pub(super) fn lengths(trials: &mut Trials) {
    for wrong in WrongLength::all(2) {
        let s = sizes(wrong.n);
        let points = vec![f64::NAN; wrong.of(0, s.points)];
        let mut b = vec![FILL; wrong.of(1, s.coordinates)];
        let answer = snap::snap(wrong.n, 99, &points, &mut b);
        trials.equal(answer, refused(2), "2, snap");
        trials.untouched(b.iter().all(|&x| x == FILL), "snap");
    }
}

/// Shares of both signs at and beside every power of two, and at and beside
/// whole and half steps of every scale.
pub(super) fn near_powers(trials: &mut Trials) {
    let mut shares = vec![0.0, 0.5, 1.0, 2.0, 1.0 / 3.0, 0.1];
    // Least and largest subnormal, least normal.
    shares.extend([1, 2, (1 << 52) - 1, 1 << 52, (1 << 52) + 1].map(f64::from_bits));
    let beside = |bits: u64| [bits - 1, bits, bits + 1].map(f64::from_bits);
    for e in -1074..=1 {
        shares.extend(beside(if e < -1022 {
            1u64 << (e + 1074)
        } else {
            ((e + 1023) as u64) << 52
        }));
    }
    for r in 4..=24 {
        let (one, two) = (1 << r, 1 << (r + 1));
        for k in [1, 2, 3, 7, one - 1, one, two - 1, two] {
            let k = k as f64;
            shares.extend(
                [k - 0.5, k]
                    .map(|k| k / one as f64)
                    .map(f64::to_bits)
                    .into_iter()
                    .flat_map(beside),
            );
        }
    }
    for share in shares.clone() {
        shares.push(-share);
    }
    shares.retain(|x| x.abs() <= 2.0);
    for &share in &shares {
        for r in 4..=24 {
            trials.share(share, r);
        }
    }
}

/// Shares halfway between two steps, which go to the even one, and the shares
/// next to them, which go to the nearer one.
pub(super) fn halves(trials: &mut Trials) {
    for r in 4..=24 {
        for _ in 0..1000 {
            let below = trials.rng.within(-(2 << r), (2 << r) - 1);
            let above = below + 1;
            let half = (below + above) as f64 / (2u64 << r) as f64;
            let even = if below % 2 == 0 { below } else { above };
            trials.equal(snap::share(half, r), Ok(even), "half");
            let bits = half.to_bits();
            let [smaller, larger] = [bits - 1, bits + 1].map(f64::from_bits);
            let (nearer_0, farther) = if half > 0.0 {
                (below, above)
            } else {
                (above, below)
            };
            trials.equal(snap::share(smaller, r), Ok(nearer_0), "beside a half");
            trials.equal(snap::share(larger, r), Ok(farther), "beside a half");
        }
    }
}

/// Random shares: half of them near the range, half any bits at all.
pub(super) fn random(trials: &mut Trials) {
    for _ in 0..1_000_000 {
        let bits = trials.rng.next();
        let r = 4 + trials.rng.below(21) as u32;
        let share = match bits & 1 {
            0 => f64::from_bits(bits >> 1),
            _ => (bits as i64 as f64) / (1u64 << 62) as f64,
        };
        let share = if trials.rng.chance(2) { -share } else { share };
        if !share.is_finite() {
            trials.equal(snap::share(share, r), refused(15), "15");
        } else if share.abs() > 2.0 {
            trials.equal(snap::share(share, r), outside(share), "16");
        } else {
            trials.share(share, r);
        }
    }
}

/// Shares that rows 15 and 16 refuse: random ones, and bits next to 2 and to
/// infinity.
pub(super) fn refused_shares(trials: &mut Trials) {
    for _ in 0..1000 {
        let share = damage::not_a_number(&mut trials.rng);
        trials.equal(snap::share(share, 16), refused(15), "15");
        let share = damage::outside(&mut trials.rng);
        trials.equal(snap::share(share, 16), outside(share), "16");
    }
    let (two, infinity) = (2.0f64.to_bits(), f64::INFINITY.to_bits());
    for sign in [0, 1 << 63] {
        for bits in [two + 1, infinity - 1] {
            let share = f64::from_bits(sign | bits);
            trials.equal(snap::share(share, 24), outside(share), "16");
        }
        for bits in [infinity, infinity + 1, u64::MAX >> 1, infinity | 1 << 51] {
            let share = f64::from_bits(sign | bits);
            trials.equal(snap::share(share, 4), refused(15), "15");
        }
    }
}

/// Lists of drawn points, all let through and with one or two bad shares.
pub(super) fn lists(trials: &mut Trials) {
    for _ in 0..trials.rounds {
        let n = trials.size(300);
        let rng = &mut trials.rng;
        let scale = [0, 4, 16, 20, 24, 4 + rng.below(21) as u32][rng.below(6)];
        let r = if scale == 0 { 20 } else { scale };
        let any = |rng: &mut Rng| rng.within(-2000, 2000) as f64 / 1000.0;
        let mut points: Vec<f64> = (0..2 * n).map(|_| any(rng)).collect();
        let wanted = points.chunks(2).flat_map(|p| {
            let (x, y) = (by_doubles(p[0], r), by_doubles(p[1], r));
            [x, y, (1 << r) - x - y]
        });
        let wanted = wanted.collect();
        let got = trials.snap(n, scale, &points);
        trials.equal(got, Ok(wanted), "snapped list");
        // The first bad share decides.
        let rng = &mut trials.rng;
        let (i, j) = (rng.below(2 * n), rng.below(2 * n));
        let share = damage::outside(rng);
        points[i] = share;
        points[j] = damage::not_a_number(rng);
        let wanted = if i < j { outside(share) } else { refused(15) };
        let got = trials.snap(n, scale, &points);
        trials.equal(got, wanted, "first bad share");
    }
}
