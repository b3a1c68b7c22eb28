//! Snapping of drawn points: each share scaled by 2^r and taken to the nearest
//! whole number, halves to the even one, from the share's bits.

use crate::{exact, Answer, Extra, Refusal, Sizes};

/// The scale that 0 stands for.
pub const USUAL_SCALE: u32 = 20;

/// Row 14, or the scale to work with.
pub fn scale(lent: u32) -> Answer<u32> {
    match lent {
        0 => Ok(USUAL_SCALE),
        4..=24 => Ok(lent),
        _ => Err(Refusal::plain(14)),
    }
}

/// Rows 15 and 16, or the whole number nearest to share times 2^r, of two that
/// are equally near the even one.
pub fn share(share: f64, r: u32) -> Answer<i64> {
    if !share.is_finite() {
        return Err(Refusal::plain(15));
    }
    if !(-2.0..=2.0).contains(&share) {
        return Err(Refusal {
            number: 16,
            extra: Extra::Share(share),
        });
    }
    let bits = share.to_bits();
    let exponent = (bits >> 52 & 0x7ff) as u32;
    let fraction = bits & ((1 << 52) - 1);
    // |share| is mantissa / 2^down before scaling. As |share| is at most 2,
    // down exceeds every r, and the shift goes right. From 55 on all of the
    // mantissa is below a half.
    let (mantissa, down) = match exponent {
        0 => (fraction, 1074),
        e => (fraction | 1 << 52, 1075 - e),
    };
    let shift = (down - r).min(55);
    let whole = mantissa >> shift;
    let out = mantissa & ((1 << shift) - 1);
    let half = 1 << (shift - 1);
    let up = u64::from(out > half) | (u64::from(out == half) & whole & 1);
    let size = (whole + up) as i64;
    Ok(if bits >> 63 == 1 { -size } else { size })
}

/// Snapping as a call. Nothing is written before every share has passed.
pub fn snap(n: usize, lent: u32, points: &[f64], coordinates: &mut [i64]) -> Answer<()> {
    let sizes = Sizes::of(n)?;
    exact(&[
        (points.len(), sizes.points),
        (coordinates.len(), sizes.coordinates),
    ])?;
    let r = scale(lent)?;
    for &x in points {
        share(x, r)?;
    }
    for (point, b) in points.chunks_exact(2).zip(coordinates.chunks_exact_mut(3)) {
        b[0] = share(point[0], r)?;
        b[1] = share(point[1], r)?;
        b[2] = (1 << r) - b[0] - b[1];
    }
    Ok(())
}
