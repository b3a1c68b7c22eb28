//! Random spheres (and tori for damage): a surface grown by putting vertices
//! into triangles and by turning sides within their two triangles, then
//! renumbered, with each triple rotated and the list shuffled. Weight lists of
//! several kinds, ranges and places for the outer triangle go with them.

use crate::LIMIT;

/// A small generator of random numbers (splitmix64).
pub struct Rng(pub u64);

impl Rng {
    #[allow(clippy::should_implement_trait)]
    pub fn next(&mut self) -> u64 {
        self.0 = self.0.wrapping_add(0x9e37_79b9_7f4a_7c15);
        let mut z = self.0;
        z = (z ^ (z >> 30)).wrapping_mul(0xbf58_476d_1ce4_e5b9);
        z = (z ^ (z >> 27)).wrapping_mul(0x94d0_49bb_1331_11eb);
        z ^ (z >> 31)
    }

    /// A number below k, which is not 0.
    pub fn below(&mut self, k: usize) -> usize {
        ((self.next() as u128 * k as u128) >> 64) as usize
    }

    /// A number from least to most.
    pub fn within(&mut self, least: i64, most: i64) -> i64 {
        least + self.below((most - least + 1) as usize) as i64
    }

    pub fn chance(&mut self, of: usize) -> bool {
        self.below(of) == 0
    }

    pub fn shuffle<T>(&mut self, list: &mut [T]) {
        for i in (1..list.len()).rev() {
            list.swap(i, self.below(i + 1));
        }
    }
}

/// A closed surface by darts, numbered as in the mesh module.
pub struct Surface {
    pub corner: Vec<u16>,
    opposite: Vec<u32>,
    pub n: usize,
}

fn after(d: usize) -> usize {
    d / 3 * 3 + (d + 1) % 3
}

fn before(d: usize) -> usize {
    d / 3 * 3 + (d + 2) % 3
}

impl Surface {
    /// From triples that make a closed surface.
    pub fn new(n: usize, corner: &[u16]) -> Surface {
        let mut darts = std::collections::HashMap::new();
        let ends = |d: usize| (corner[d], corner[after(d)]);
        for d in 0..corner.len() {
            darts.insert(ends(d), d as u32);
        }
        let back = |d: usize| darts[&(ends(d).1, ends(d).0)];
        Surface {
            opposite: (0..corner.len()).map(back).collect(),
            corner: corner.to_vec(),
            n,
        }
    }

    fn join(&mut self, d: usize, e: usize) {
        self.opposite[d] = e as u32;
        self.opposite[e] = d as u32;
    }

    /// Puts a new vertex into triangle t.
    pub fn insert(&mut self, t: usize) {
        let x = self.n as u16;
        self.n += 1;
        let [a, b, c] = [0, 1, 2].map(|i| self.corner[3 * t + i]);
        let across = [1, 2].map(|i| self.opposite[3 * t + i] as usize);
        let u = self.corner.len();
        self.corner[3 * t + 2] = x;
        self.corner.extend([b, c, x, c, a, x]);
        self.opposite.extend([0; 6]);
        self.join(u, across[0]);
        self.join(u + 3, across[1]);
        self.join(3 * t + 1, u + 2);
        self.join(u + 1, u + 5);
        self.join(u + 4, 3 * t + 2);
    }

    /// Whether a side joins the tails of c and d; looks round both at once.
    fn joined(&self, c: usize, d: usize) -> bool {
        let (mut at_c, mut at_d) = (c, d);
        loop {
            if self.corner[after(at_c)] == self.corner[d]
                || self.corner[after(at_d)] == self.corner[c]
            {
                return true;
            }
            at_c = self.opposite[before(at_c)] as usize;
            at_d = self.opposite[before(at_d)] as usize;
            if at_c == c || at_d == d {
                return false;
            }
        }
    }

    /// Turns the side of dart d, where that leaves the mesh simple.
    pub fn flip(&mut self, d: usize) -> bool {
        let e = self.opposite[d] as usize;
        let (c, x) = (before(d), before(e));
        if self.corner[c] == self.corner[x] || self.joined(c, x) {
            return false;
        }
        let (vc, vx) = (self.corner[c], self.corner[x]);
        // (a, b, c) and (b, a, x) become (a, x, c) and (b, c, x).
        let (bc, ax) = (after(d), after(e));
        let (over_bc, over_ax) = (self.opposite[bc] as usize, self.opposite[ax] as usize);
        self.corner[bc] = vx;
        self.corner[ax] = vc;
        // Darts: d is a to x, bc is x to c; e is b to c, ax is c to x.
        self.join(d, over_ax);
        self.join(e, over_bc);
        self.join(bc, ax);
        true
    }

    /// Grows to n vertices: where the next vertex goes is up to `habit`, and
    /// `flips` sides are tried after every insertion.
    pub fn grow(&mut self, rng: &mut Rng, n: usize, habit: usize, flips: usize) {
        while self.n < n {
            let triangles = self.corner.len() / 3;
            let t = match habit {
                0 => rng.below(triangles),
                1 => triangles - 1 - rng.below(3.min(triangles)),
                2 => triangles - 1,
                // A triangle at vertex 0.
                3 => (0..triangles)
                    .map(|_| rng.below(triangles))
                    .take(50)
                    .find(|&t| self.corner[3 * t..3 * t + 3].contains(&0))
                    .unwrap_or(0),
                _ => [0, triangles - 1][rng.below(2)],
            };
            self.insert(t);
            for _ in 0..flips {
                self.flip(rng.below(self.corner.len()));
            }
        }
    }

    /// Tries as many flips anywhere.
    pub fn mix(&mut self, rng: &mut Rng, flips: usize) {
        for _ in 0..flips {
            self.flip(rng.below(self.corner.len()));
        }
    }
}

/// Renumbers the vertices, rotates each triple and shuffles the list.
pub fn scramble(rng: &mut Rng, n: usize, corner: &[u16]) -> Vec<u16> {
    renumbered(rng, n, corner).1
}

/// The same, with the new number of each vertex before it.
pub fn renumbered(rng: &mut Rng, n: usize, corner: &[u16]) -> (Vec<u16>, Vec<u16>) {
    let mut name: Vec<u16> = (0..n as u16).collect();
    rng.shuffle(&mut name);
    let mut list: Vec<[u16; 3]> = corner
        .chunks(3)
        .map(|t| {
            let r = rng.below(3);
            [0, 1, 2].map(|i| name[t[(i + r) % 3] as usize])
        })
        .collect();
    rng.shuffle(&mut list);
    (name, list.concat())
}

/// A double pyramid over a ring of n - 2 vertices.
fn bipyramid(n: usize) -> Vec<u16> {
    let (k, mut out) = (n as u16 - 2, vec![]);
    for i in 0..k {
        let j = (i + 1) % k;
        out.extend([i, j, k, j, i, k + 1]);
    }
    out
}

/// A random sphere on n vertices, n being 3 or more.
pub fn sphere(rng: &mut Rng, n: usize) -> Vec<u16> {
    let mut surface = if n >= 5 && rng.chance(8) {
        Surface::new(n, &bipyramid(n))
    } else {
        let mut small = Surface::new(3, &[0, 2, 1, 0, 1, 2]);
        let (habit, flips) = (rng.below(5), [0, 0, 1, 3][rng.below(4)]);
        small.grow(rng, n, habit, flips);
        small
    };
    let flips = [0, 1, n / 4, n, 4 * n][rng.below(5)];
    surface.mix(rng, flips);
    scramble(rng, n, &surface.corner)
}

/// A random torus on n vertices, n being 7 or more; not scrambled.
pub fn torus(rng: &mut Rng, n: usize) -> Vec<u16> {
    let seven = |i: u16| {
        let m = |k: u16| (i + k) % 7;
        [m(0), m(1), m(3), m(0), m(3), m(2)]
    };
    let corner: Vec<u16> = (0..7).flat_map(seven).collect();
    let mut surface = Surface::new(7, &corner);
    surface.grow(rng, n, 0, 1);
    surface.mix(rng, n);
    surface.corner
}

/// The list with a triangle moved to another place; the others keep their order.
pub fn moved(triangles: &[u16], from: usize, to: usize) -> Vec<u16> {
    let mut list: Vec<&[u16]> = triangles.chunks(3).collect();
    let one = list.remove(from);
    list.insert(to, one);
    list.concat()
}

/// The triangle at a place.
pub fn triangle(triangles: &[u16], place: usize) -> [u16; 3] {
    [0, 1, 2].map(|i| triangles[3 * place + i])
}

/// A place for the outer triangle of n vertices: the first, the last, or any.
pub fn place(rng: &mut Rng, n: usize) -> usize {
    match rng.below(4) {
        0 => 0,
        1 => 2 * n - 5,
        _ => rng.below(2 * n - 4),
    }
}

/// Kinds of weight lists that row 9 lets through.
pub const KINDS: [&str; 10] = [
    "unit", "zero", "signed", "positive", "negative", "balanced", "spike", "wide", "heavy", "full",
];

/// A weight list of a kind; `None` for a name that is no kind.
pub fn weights(rng: &mut Rng, kind: &str, len: usize) -> Option<Vec<i64>> {
    let each = LIMIT / len as i64;
    let mut list =
        |least: i64, most: i64| -> Vec<i64> { (0..len).map(|_| rng.within(least, most)).collect() };
    Some(match kind {
        "unit" => vec![1; len],
        "zero" => vec![0; len],
        "signed" => list(-9, 9),
        "positive" => list(1, each.min(1000)),
        "negative" => list(-each.min(1000), -1),
        // A total of -1, 0 or 1.
        "balanced" => {
            let mut w = list(-9, 9);
            let total: i64 = w.iter().sum();
            w[rng.below(len)] += rng.within(-1, 1) - total;
            w
        }
        "spike" => {
            let mut w = list(1, 3);
            for _ in 0..1 + len / 40 {
                w[rng.below(len)] = -rng.within(1, each.min(60));
            }
            w
        }
        "wide" => list(-each, each),
        // A part of the limit on few triangles.
        "heavy" => {
            let mut w = vec![0; len];
            for _ in 0..4 {
                let part = LIMIT / 4 / (1 << rng.below(20));
                w[rng.below(len)] = rng.within(-part, part);
            }
            w
        }
        // Absolute values that sum to the limit, or nearly.
        "full" => {
            let mut left = LIMIT - [0, 0, 1, 1000][rng.below(4)];
            let mut w: Vec<i64> = vec![0; len];
            let mut order: Vec<usize> = (0..len).collect();
            rng.shuffle(&mut order);
            for (k, &t) in order.iter().enumerate() {
                let part = if k + 1 == len {
                    left
                } else {
                    rng.within(0, left) / [1, 2, 64][rng.below(3)]
                };
                w[t] = if rng.chance(2) { -part } else { part };
                left -= part;
            }
            w
        }
        _ => return None,
    })
}

/// A weight list of any kind.
pub fn any_weights(rng: &mut Rng, len: usize) -> Vec<i64> {
    let kind = KINDS[rng.below(KINDS.len())];
    weights(rng, kind, len).expect("a kind from the list")
}

/// Lows and highs that rows 29 and 9 let through: equal ends; halves of two lists;
/// sums of the limit, or nearly, below 0 and above; lows of 1 or more; and small
/// tolerances.
pub fn ranges(rng: &mut Rng, len: usize) -> [Vec<i64>; 2] {
    let of = |rng: &mut Rng, kind| weights(rng, kind, len).expect("a kind").into_iter();
    let pairs: Vec<[i64; 2]> = match rng.below(5) {
        0 => any_weights(rng, len).into_iter().map(|w| [w, w]).collect(),
        1 => {
            let halves = |rng: &mut Rng| any_weights(rng, len).into_iter().map(|w| w / 2);
            let both = halves(rng).zip(halves(rng));
            both.map(|(a, b)| [a.min(b), a.max(b)]).collect()
        }
        2 => of(rng, "full").map(|w| [-w.abs(), w.abs()]).collect(),
        3 => {
            let each = LIMIT / len as i64;
            let lows = of(rng, "positive");
            lows.map(|w| [w, rng.within(w, each)]).collect()
        }
        _ => {
            let lows = of(rng, "signed");
            lows.map(|w| [w, w + rng.within(0, 3)]).collect()
        }
    };
    [0, 1].map(|end| pairs.iter().map(|pair| pair[end]).collect())
}

/// A weight list within ranges: each weight anywhere, or at one of its ends.
pub fn within(rng: &mut Rng, [lows, highs]: [&[i64]; 2]) -> Vec<i64> {
    let at_ends = rng.chance(2);
    let mut pick = |(&low, &high): (&i64, &i64)| match at_ends {
        true => [low, high][rng.below(2)],
        false => rng.within(low, high),
    };
    lows.iter().zip(highs).map(&mut pick).collect()
}
