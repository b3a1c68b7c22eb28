//! Snapping: f64 patterns of every class and random ones, at every scale, with
//! half steps, wrong lengths, scales and n among them. The whole numbers are
//! held against exact integer arithmetic besides.

use crate::tally::{told, Tally};
use second::spheres::Rng;
use second::{naive, snap};

/// Patterns without their sign: zero, subnormals, powers of two with their
/// neighbours, what lies about 2, infinity and NaNs.
fn classes() -> Vec<u64> {
    let mut all = vec![0, 1, 2, (1 << 52) - 1, 0x7fef_ffff_ffff_ffff];
    for field in 1..2047u64 {
        let power = field << 52;
        all.extend([power - 1, power, power + 1, power + (1 << 51)]);
    }
    let infinity = 0x7ff0_0000_0000_0000;
    all.extend([infinity, infinity + 1, infinity + (1 << 51), u64::MAX >> 1]);
    all
}

/// Halfway between two steps of scale r, or next to that.
fn half_step(rng: &mut Rng, r: u32) -> f64 {
    let odd = 2 * rng.within(-(2 << r), (2 << r) - 1) + 1;
    let half = odd as f64 / (2u64 << r) as f64;
    f64::from_bits(half.to_bits() - 1 + rng.below(3) as u64)
}

/// A pattern of which many are inside -2 to 2, for scale r.
fn random(rng: &mut Rng, r: u32) -> f64 {
    let bits = rng.next();
    match rng.below(5) {
        0 => f64::from_bits(bits),
        1 => f64::from_bits((bits & !(0x7ff << 52)) | (rng.below(1026) as u64) << 52),
        2 => half_step(rng, r),
        _ => (bits as i64 as f64) / (1u64 << 62) as f64,
    }
}

fn one(tally: &mut Tally, n: usize, shares: &[f64], scale: u32, len: usize) {
    let mut ours: Vec<i64> = (0..len as i64).map(|i| i - 7).collect();
    let mut theirs = ours.clone();
    let answer = told(packmap::snap_points(n, shares, scale, &mut ours));
    let wanted = snap::snap(n, scale, shares, &mut theirs);
    let r = snap::scale(scale).unwrap_or(snap::USUAL_SCALE);
    let exact = answer.is_err()
        || shares
            .chunks_exact(2)
            .zip(ours.chunks_exact(3))
            .all(|(p, b)| naive::snapped(p[0], r, b[0]) && naive::snapped(p[1], r, b[1]));
    let same = answer == wanted && exact && ours == theirs;
    tally.count(answer, same, || {
        format!("n {n}, scale {scale}, {shares:?}: {answer:?} and {wanted:?}")
    });
}

pub fn run(count: usize, seed: u64) -> Tally {
    let mut rng = Rng(seed);
    let mut tally = Tally::new("snapping", &[0, 1, 2, 14, 15, 16]);
    for bits in classes() {
        for sign in [0, 1 << 63] {
            let x = f64::from_bits(bits | sign);
            let scale = [0, 4, 16, 20, 23, 24][rng.below(6)];
            one(&mut tally, 3, &[x, 0.5, -0.25, x, 1.0, -2.0], scale, 9);
        }
    }
    for _ in 0..count {
        let n = 3 + rng.below(3);
        let scale = if rng.chance(20) {
            rng.below(40) as u32
        } else {
            [0, 4 + rng.below(21) as u32][rng.below(2)]
        };
        let r = snap::scale(scale).unwrap_or(snap::USUAL_SCALE);
        let shares: Vec<f64> = (0..2 * n).map(|_| random(&mut rng, r)).collect();
        let (cut, len) = (rng.chance(50) as usize, 3 * n - rng.chance(50) as usize);
        let named = if rng.chance(50) { rng.below(7000) } else { n };
        one(&mut tally, named, &shares[cut..], scale, len);
    }
    tally
}
