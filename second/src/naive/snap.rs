//! The slow snapping: a whole number is held against the share itself, by exact
//! integers.

/// Whether k is the whole number that share becomes at scale r: at most a half
/// away from share times 2^r, and even where it is a half away. For finite
/// shares of at most 2 either way.
pub fn snapped(share: f64, r: u32, k: i64) -> bool {
    let bits = share.to_bits();
    let field = (bits >> 52) & 2047;
    let fraction = (bits % (1 << 52)) as i128;
    let size = if field == 0 {
        fraction
    } else {
        fraction + (1 << 52)
    };
    let size = if share.is_sign_negative() {
        -size
    } else {
        size
    };
    // share = size / 2^power.
    let power = 1075 - field.max(1) as i128;
    let down = power - r as i128;
    if down > 90 {
        // Closer to 0 than a half.
        return k == 0;
    }
    let unit = 1i128 << down;
    let twice_away = 2 * (k as i128 * unit - size).abs();
    twice_away < unit || (twice_away == unit && k % 2 == 0)
}
