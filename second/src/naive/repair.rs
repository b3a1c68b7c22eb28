//! The slow repair: all areas and all coordinates computed anew for each raise.

use super::{Labelled, Triple};

/// Largest sum of absolute weights that row 9 lets through.
const L: i128 = 1_073_741_823;

/// A raise: the inner triangle, counted from 0, and what its weight gets.
pub type Raise = (usize, i64);

/// Area numbers of the inner triangles, their corners given by label.
pub fn areas(corners: &[Triple], b: &[i64]) -> Vec<i128> {
    let at = |v: usize, c: usize| b[3 * v + c] as i128;
    let area = |&[p, q, r]: &Triple| {
        (at(q, 0) - at(p, 0)) * (at(r, 1) - at(p, 1))
            - (at(q, 1) - at(p, 1)) * (at(r, 0) - at(p, 0))
    };
    corners.iter().map(area).collect()
}

/// 1 + m of a triangle.
pub fn own_raise(corners: &Triple, b: &[i64]) -> i64 {
    let mut m = i64::MIN;
    for c in 0..3 {
        let own = b[3 * corners[c] + c];
        for d in 0..3 {
            if d != c {
                m = m.max(b[3 * corners[d] + c] - own);
            }
        }
    }
    1 + m
}

/// The raise that comes before all others, if N is below 1.
pub fn first_raise(corners: &[Triple], weights: &[i64], b: &[i64]) -> Option<Raise> {
    let total: i64 = weights.iter().sum();
    (total < 1).then(|| (0, own_raise(&corners[0], b).max(1 - total)))
}

/// The raise that coordinates b call for, if any.
pub fn next_raise(corners: &[Triple], b: &[i64]) -> Option<Raise> {
    let t = areas(corners, b).iter().position(|&d| d <= 0)?;
    Some((t, own_raise(&corners[t], b)))
}

/// Whether row 9 refuses the weights.
pub fn too_heavy(weights: &[i64]) -> bool {
    weights.iter().map(|&w| (w as i128).abs()).sum::<i128>() > L
}

/// Repair with coordinates from `forward` each time. Returns the raises in
/// order, and whether row 13 ended them.
pub fn repair_by(
    corners: &[Triple],
    weights: &mut [i64],
    mut forward: impl FnMut(&[i64]) -> Vec<i64>,
) -> (Vec<Raise>, bool) {
    let mut raises = vec![];
    let mut b = forward(weights);
    let mut due = first_raise(corners, weights, &b).or_else(|| next_raise(corners, &b));
    while let Some((t, step)) = due {
        weights[t] += step;
        if too_heavy(weights) {
            weights[t] -= step;
            return (raises, true);
        }
        raises.push((t, step));
        b = forward(weights);
        due = next_raise(corners, &b);
    }
    (raises, false)
}

impl Labelled {
    /// Repair with the slow forward map.
    pub fn repair(&self, weights: &mut [i64]) -> (Vec<Raise>, bool) {
        repair_by(&self.corners, weights, |w| self.forward(w))
    }
}
