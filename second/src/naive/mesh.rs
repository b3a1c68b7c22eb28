//! The slow mesh check: rows 21, 3 to 8 and 25, each by its definition.

use super::{sides, triples, Side, Triple};
use crate::Refusal;
use std::collections::{BTreeMap, BTreeSet};

/// The refusal of a mesh of fitting length, by rows 21 and 3 to 8 with 25 at the
/// place of 7.
pub fn refusal(n: usize, outer: usize, triangles: &[u16]) -> Option<Refusal> {
    let all = triples(triangles);
    if all.get(outer).is_none() {
        return Some(Refusal::plain(21));
    }
    if all.iter().flatten().any(|&v| v >= n) {
        return Some(Refusal::plain(3));
    }
    let vertices = |t: &Triple| t.iter().collect::<BTreeSet<_>>().len();
    if all.iter().any(|t| vertices(t) < 3) {
        return Some(Refusal::plain(4));
    }
    let list: Vec<Side> = all.iter().flat_map(sides).collect();
    let set: BTreeSet<Side> = list.iter().copied().collect();
    if set.len() < list.len() {
        return Some(Refusal::plain(5));
    }
    if list.iter().any(|&(a, b)| !set.contains(&(b, a))) {
        return Some(Refusal::plain(6));
    }
    let stray: BTreeSet<usize> = (0..n)
        .filter(|v| !all.iter().flatten().any(|u| u == v))
        .collect();
    let pinched: BTreeSet<usize> = (0..n).filter(|&v| several_rings(&all, v)).collect();
    let lowest = stray.union(&pinched).min().copied();
    if let Some(v) = lowest {
        return Some(Refusal::at(if stray.contains(&v) { 25 } else { 7 }, v));
    }
    (!one_piece(&all)).then_some(Refusal::plain(8))
}

/// Whether the triangles at a vertex make several rings. Every side has its
/// opposite.
fn several_rings(all: &[Triple], v: usize) -> bool {
    // From a to b for each triangle (v, a, b): a ring is a cycle.
    let mut turn = BTreeMap::new();
    for t in all {
        if let Some(i) = t.iter().position(|&x| x == v) {
            turn.insert(t[(i + 1) % 3], t[(i + 2) % 3]);
        }
    }
    let Some((&start, _)) = turn.first_key_value() else {
        return false;
    };
    let mut ring = BTreeSet::new();
    let mut a = start;
    while ring.insert(a) {
        a = turn[&a];
    }
    ring.len() < turn.len()
}

/// Whether every triangle is reached from the first by common vertices.
fn one_piece(all: &[Triple]) -> bool {
    let mut piece = BTreeSet::from([0]);
    loop {
        let before = piece.len();
        let reached: BTreeSet<usize> = piece.iter().flat_map(|&t: &usize| all[t]).collect();
        for (t, corners) in all.iter().enumerate() {
            if corners.iter().any(|v| reached.contains(v)) {
                piece.insert(t);
            }
        }
        if piece.len() == before {
            return piece.len() == all.len();
        }
    }
}
