//! The slow forward map of ranges: the least and the most of each coordinate over
//! all weight lists within the ranges, and its refusals in their order.

use super::{refusal, too_heavy, Labelled};
use crate::Refusal;

impl Labelled {
    /// The least and the most of each coordinate: it sums the weights, each so many
    /// times. So it is least where every weight is at its low, or at its high where it
    /// is counted fewer than 0 times.
    pub fn range(&self, lows: &[i64], highs: &[i64]) -> [Vec<i64>; 2] {
        let mut ends = [vec![], vec![]];
        for counts in self.counts() {
            let (mut least, mut most) = (0, 0);
            for (t, count) in counts.into_iter().enumerate() {
                let ends = [lows[t], highs[t]].map(|w| count * i128::from(w));
                least += ends[0].min(ends[1]);
                most += ends[0].max(ends[1]);
            }
            ends[0].push(least as i64);
            ends[1].push(most as i64);
        }
        ends
    }
}

/// The refusal of slices of fitting length: 21, 29, the mesh check's others, and 9
/// of either list.
pub fn range_refusal(
    n: usize,
    outer: usize,
    triangles: &[u16],
    lows: &[i64],
    highs: &[i64],
) -> Option<Refusal> {
    let by_mesh = refusal(n, outer, triangles);
    if by_mesh == Some(Refusal::plain(21)) {
        return by_mesh;
    }
    if (0..lows.len()).any(|t| lows[t] > highs[t]) {
        return Some(Refusal::plain(29));
    }
    let heavy = too_heavy(lows) || too_heavy(highs);
    by_mesh.or(heavy.then_some(Refusal::plain(9)))
}
