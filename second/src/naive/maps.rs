//! The slow maps: forward by the sets of sides on walks and paths, backward by
//! the differences along coloured sides.

use super::{by_label, inner, sides, triples, Side, Triple};
use std::collections::{BTreeMap, BTreeSet};

/// An inner side by its ends without direction, to colour, tail and head.
type Colours = BTreeMap<Side, (u8, usize, usize)>;

fn undirected((a, b): Side) -> Side {
    (a.min(b), a.max(b))
}

/// A labelled mesh with colours, walks and paths.
pub struct Labelled {
    n: usize,
    /// v0, v1, v2.
    rim: Triple,
    /// For each inner triangle, its corners labelled 0, 1, 2.
    pub corners: Vec<Triple>,
    colours: Colours,
    /// in_b[c][i]: the inner triangles whose weights b0 (c = 0) or b1 of
    /// vertex i sums.
    in_b: [Vec<Vec<usize>>; 2],
}

impl Labelled {
    pub fn new(n: usize, outer: usize, triangles: &[u16], labels: &[u8]) -> Labelled {
        let all = triples(triangles);
        let [v0, v2, v1] = all[outer];
        let rim = [v0, v1, v2];
        let corners = by_label(outer, triangles, labels);
        let colours = colours(&all, outer, labels);
        let walks = walks(&all, outer, &corners);
        let met = |c: u8| -> Vec<Vec<usize>> {
            let meeting = |i: usize| {
                let path = path(&colours, rim, c, i);
                let meets = |t: &usize| !walks[*t].is_disjoint(&path);
                (0..walks.len()).filter(meets).collect()
            };
            (0..n).map(meeting).collect()
        };
        let in_b = [met(1), met(0)];
        Labelled {
            n,
            rim,
            corners,
            colours,
            in_b,
        }
    }

    /// Coordinates of the weights.
    pub fn forward(&self, weights: &[i64]) -> Vec<i64> {
        let total: i128 = weights.iter().map(|&w| w as i128).sum();
        let mut b = vec![];
        for i in 0..self.n {
            let sum = |set: &[usize]| set.iter().map(|&t| weights[t] as i128).sum::<i128>();
            let (b0, b1) = (sum(&self.in_b[0][i]), sum(&self.in_b[1][i]));
            b.extend([b0, b1, total - b0 - b1].map(|x| x as i64));
        }
        b
    }

    /// For each coordinate, how many times it counts each weight: b0 and b1 those
    /// of their sets, b2 all of them less b0's and b1's.
    pub fn counts(&self) -> Vec<Vec<i128>> {
        let all = 0..self.corners.len();
        let mut counts = vec![];
        for i in 0..self.n {
            let [b0, b1] = [0, 1].map(|c| -> Vec<i128> {
                let set = &self.in_b[c][i];
                all.clone().map(|t| set.contains(&t).into()).collect()
            });
            let b2 = all.clone().map(|t| 1 - b0[t] - b1[t]).collect();
            counts.extend([b0, b1, b2]);
        }
        counts
    }

    /// Weights of the coordinates, not yet held against any limit. Either
    /// `choice`, 0 or 1, of the colours of the rim sides gives the same.
    pub fn backward(&self, b: &[i64], choice: usize) -> Vec<i64> {
        let s = |side| self.s(side, b, choice);
        let weight = |&[p, q, r]: &Triple| s((p, q)) - s((q, r)) - s((r, p));
        self.corners.iter().map(|t| weight(t) as i64).collect()
    }

    /// The same weights by document 02's rule for the directions of the sides
    /// pq, qr and rp, each after its case: 4, 2 and 1 for those that run
    /// that way.
    pub fn by_cases(&self, b: &[i64], choice: usize) -> Vec<(usize, i64)> {
        let weigh = |t| self.by_case(t, b, choice);
        self.corners.iter().map(weigh).collect()
    }

    fn by_case(&self, t: &Triple, b: &[i64], choice: usize) -> (usize, i64) {
        let at = |v: usize, c: usize| b[3 * v + c] as i128;
        let mut case = 0;
        // For the corner of each label, those that its sides run to.
        let mut to: [Vec<usize>; 3] = Default::default();
        for c in 0..3 {
            let d = (c + 1) % 3;
            let (_, tail, _) = self.directed((t[c], t[d]), choice);
            let (from, head) = if tail == t[c] { (c, d) } else { (d, c) };
            case = 2 * case + (from == c) as usize;
            to[from].push(head);
        }
        let leaving = |sides: usize| to.iter().position(|to| to.len() == sides);
        let weight = match (leaving(2), leaving(1)) {
            // Two sides leave a corner: its own coordinate there, less the
            // same one at the corner between.
            (Some(c), Some(between)) => at(t[c], c) - at(t[between], c),
            // They run in a circle: N, less each corner's own coordinate at
            // the one that its side runs to.
            _ => at(self.rim[0], 0) - (0..3).map(|c| at(t[to[c][0]], c)).sum::<i128>(),
        };
        (case, weight as i64)
    }

    /// s of a side.
    fn s(&self, side: Side, b: &[i64], choice: usize) -> i128 {
        let at = |v: usize, c: usize| b[3 * v + c] as i128;
        let (colour, i, j) = self.directed(side, choice);
        match colour {
            0 => at(i, 1) - at(j, 1),
            1 => at(i, 0) - at(j, 0),
            _ => 0,
        }
    }

    /// A side's colour, tail and head.
    fn directed(&self, side: Side, choice: usize) -> (u8, usize, usize) {
        match self.colours.get(&undirected(side)) {
            Some(&found) => found,
            None => self.rim_side(side, choice),
        }
    }

    /// A rim side towards one of its ends, with the colour of that end.
    fn rim_side(&self, side: Side, choice: usize) -> (u8, usize, usize) {
        let (a, b) = undirected(side);
        let (tail, head) = if choice == 0 { (a, b) } else { (b, a) };
        let colour = self.rim.iter().position(|&v| v == head);
        (colour.expect("an end on the rim") as u8, tail, head)
    }
}

/// Colours and directions of the inner sides: a side points to the end whose
/// two corners carry the same label.
fn colours(all: &[Triple], outer: usize, labels: &[u8]) -> Colours {
    // Labels at the two ends of each side, from its inner triangles.
    let mut ends: BTreeMap<Side, Vec<(usize, u8)>> = BTreeMap::new();
    for (place, at) in inner(all, outer).zip(labels.chunks(3)) {
        let t = all[place];
        for i in 0..3 {
            let j = (i + 1) % 3;
            let both = [(t[i], at[i]), (t[j], at[j])];
            ends.entry(undirected((t[i], t[j])))
                .or_default()
                .extend(both);
        }
    }
    let mut colours = Colours::new();
    for (&side, list) in ends.iter().filter(|(_, list)| list.len() == 4) {
        let (a, b) = side;
        for (head, tail) in [(a, b), (b, a)] {
            let at_head = list.iter().filter(|(v, _)| *v == head);
            let at_head: BTreeSet<u8> = at_head.map(|&(_, c)| c).collect();
            if let [colour] = at_head.into_iter().collect::<Vec<_>>()[..] {
                let twice = colours.insert(side, (colour, tail, head));
                assert!(twice.is_none(), "a side points one way");
            }
        }
    }
    colours
}

/// The sides that the colour-2 walk of each inner triangle crosses.
fn walks(all: &[Triple], outer: usize, corners: &[Triple]) -> Vec<BTreeSet<Side>> {
    let corners: BTreeMap<usize, &Triple> = inner(all, outer).zip(corners).collect();
    // The triangles on both sides of a side.
    let mut beside: BTreeMap<Side, Vec<usize>> = BTreeMap::new();
    for (place, t) in all.iter().enumerate() {
        for side in sides(t) {
            beside.entry(undirected(side)).or_default().push(place);
        }
    }
    let walk = |start: usize| {
        let mut crossed = BTreeSet::new();
        let mut at = start;
        while at != outer {
            let [p, q, _] = corners[&at];
            let side = undirected((*p, *q));
            assert!(crossed.insert(side), "a walk ends");
            let other = beside[&side].iter().find(|&&t| t != at);
            at = *other.expect("a triangle beyond");
        }
        crossed
    };
    inner(all, outer).map(walk).collect()
}

/// The sides on the path of colour c from a vertex to v_c.
fn path(colours: &Colours, rim: Triple, c: u8, from: usize) -> BTreeSet<Side> {
    let root = rim[c as usize];
    let mut path = BTreeSet::new();
    let mut v = from;
    while v != root {
        let to = if rim.contains(&v) {
            root
        } else {
            let leaving = colours.values().find(|s| s.0 == c && s.1 == v);
            leaving.expect("each colour leaves an inner vertex").2
        };
        assert!(path.insert(undirected((v, to))), "a path ends");
        v = to;
    }
    path
}
