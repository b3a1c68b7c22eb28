//! The slow labels: peeling, with the frontier searched anew for each vertex.

use super::{inner, triples, Triple};
use std::collections::{BTreeMap, BTreeSet};

/// For each side, the third corner and the place of its triangle.
type Thirds = BTreeMap<(usize, usize), (usize, usize)>;

/// Labels of the inner corners, by peeling.
pub fn labels(n: usize, outer: usize, triangles: &[u16]) -> Vec<u8> {
    let all = triples(triangles);
    let mut thirds = Thirds::new();
    for (place, t) in all.iter().enumerate() {
        for i in 0..3 {
            thirds.insert((t[i], t[(i + 1) % 3]), (t[(i + 2) % 3], place));
        }
    }
    let [v0, v2, v1] = all[outer];
    let mut remaining: BTreeSet<usize> = (0..n).collect();
    let mut frontier = vec![v0, v2, v1];
    let mut at: Vec<BTreeMap<usize, u8>> = vec![BTreeMap::new(); all.len()];
    while frontier != [v0, v1] {
        let i = next(&thirds, &remaining, &frontier);
        let v = frontier[i];
        let mut chain = vec![frontier[i - 1]];
        while chain.last() != Some(&frontier[i + 1]) {
            let u = chain[chain.len() - 1];
            let (w, place) = thirds[&(v, u)];
            at[place] = BTreeMap::from([(v, 2), (u, 0), (w, 1)]);
            chain.push(w);
        }
        remaining.remove(&v);
        frontier.splice(i - 1..=i + 1, chain);
    }
    let labelled = |place: usize| all[place].map(|v| at[place][&v]);
    inner(&all, outer).flat_map(labelled).collect()
}

/// The frontier's place of the next vertex to remove: the smallest-numbered
/// one whose remaining neighbours on the frontier are the two beside it.
fn next(thirds: &Thirds, remaining: &BTreeSet<usize>, frontier: &[usize]) -> usize {
    let removable = |&i: &usize| {
        let near = |&u: &usize| thirds.contains_key(&(frontier[i], u)) && frontier.contains(&u);
        let near: BTreeSet<usize> = remaining.iter().copied().filter(near).collect();
        near == BTreeSet::from([frontier[i - 1], frontier[i + 1]])
    };
    let between = 1..frontier.len() - 1;
    let next = between.filter(removable).min_by_key(|&i| frontier[i]);
    next.expect("every accepted mesh can be peeled")
}

/// The corners of the inner triangles, in the order of their labels.
pub fn by_label(outer: usize, triangles: &[u16], labels: &[u8]) -> Vec<Triple> {
    let all = triples(triangles);
    inner(&all, outer)
        .zip(labels.chunks(3))
        .map(|(place, at)| {
            let with = |c: u8| at.iter().position(|&x| x == c);
            let corner = |c: u8| all[place][with(c).expect("each label occurs once")];
            [0, 1, 2].map(corner)
        })
        .collect()
}
