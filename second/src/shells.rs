//! The sample meshes and texts of document 01, one for 25, and repairs and ranges
//! worked out by hand. A mesh is the flat list of its triples; on n vertices it has 3(2n - 4)
//! numbers.

use crate::{Answer, Extra, Refusal, LIMIT};

/// P1: two triangles on the same three vertices, n = 3.
pub const PAIR: [u16; 6] = [0, 2, 1, 0, 1, 2];
/// P2 and P5 to P8: the tetrahedron, which the document calls tetra, n = 4.
pub const TETRA: [u16; 12] = [0, 2, 1, 0, 3, 2, 3, 1, 2, 0, 1, 3];
/// P3 and P4: n = 5.
pub const FIVE: [u16; 18] = [0, 2, 1, 0, 3, 2, 3, 1, 2, 0, 1, 4, 1, 3, 4, 3, 0, 4];

/// Row 3, a vertex number n or more: n = 3.
pub const ROW3: [u16; 6] = [0, 2, 1, 0, 1, 3];
/// Row 4, a vertex twice in a triangle: n = 3.
pub const ROW4: [u16; 6] = [0, 2, 1, 0, 0, 1];
/// Row 5, a side twice: n = 3.
pub const ROW5: [u16; 6] = [0, 2, 1, 0, 2, 1];
/// Row 6, a side lacks its opposite: n = 6.
pub const ROW6: [u16; 24] = [
    0, 1, 2, 0, 2, 3, 0, 3, 4, 0, 4, 5, 0, 5, 1, 1, 5, 4, 1, 4, 3, 2, 5, 3,
];
/// Row 7, not one ring at a vertex: n = 8, two bipyramids over 0, 1, 2 and
/// 5, 6, 7 with the tips 3 and 4 in common.
pub const ROW7: [u16; 36] = [
    0, 1, 3, 1, 2, 3, 2, 0, 3, 1, 0, 4, 2, 1, 4, 0, 2, 4, // the first bipyramid
    5, 6, 3, 6, 7, 3, 7, 5, 3, 6, 5, 4, 7, 6, 4, 5, 7, 4, // the second
];
/// Row 25, a vertex in no triangle: n = 9, the torus (i, i+1, i+3), (i, i+3, i+2)
/// modulo 7, without 7 and 8.
pub const ROW25: [u16; 42] = [
    0, 1, 3, 0, 3, 2, 1, 2, 4, 1, 4, 3, 2, 3, 5, 2, 5, 4, 3, 4, 6, //
    3, 6, 5, 4, 5, 0, 4, 0, 6, 5, 6, 1, 5, 1, 0, 6, 0, 2, 6, 2, 1,
];
/// Row 8, several pieces: n = 11, the tetrahedron and the torus (i, i+1, i+3),
/// (i, i+3, i+2) modulo 7, plus 4.
pub const ROW8: [u16; 54] = [
    0, 2, 1, 0, 3, 2, 3, 1, 2, 0, 1, 3, // the tetrahedron
    4, 5, 7, 4, 7, 6, 5, 6, 8, 5, 8, 7, 6, 7, 9, 6, 9, 8, 7, 8, 10, // the torus
    7, 10, 9, 8, 9, 4, 8, 4, 10, 9, 10, 5, 9, 5, 4, 10, 4, 6, 10, 6, 5,
];

/// The meshes of rows 3 to 8 and 25: the refusal, n and mesh.
pub const ROWS: [(Refusal, usize, &[u16]); 7] = [
    (Refusal::plain(3), 3, &ROW3),
    (Refusal::plain(4), 3, &ROW4),
    (Refusal::plain(5), 3, &ROW5),
    (Refusal::plain(6), 6, &ROW6),
    (Refusal::at(7, 3), 8, &ROW7),
    (Refusal::at(25, 7), 9, &ROW25),
    (Refusal::plain(8), 11, &ROW8),
];

/// The example job text: the tetrahedron with the weights 5, 3, -1 of P6.
pub const EXAMPLE: &str =
    "pack-map\t4\nt\t0\t2\t1\nt\t0\t3\t2\nt\t3\t1\t2\nt\t0\t1\t3\nw\t5\nw\t3\nw\t-1\n";
/// What packmap prints for the example.
pub const LISTING: &str =
    "pack-map\t4\t9\t1\nv\t0\t9\t0\t0\nv\t1\t0\t9\t0\nv\t2\t0\t0\t9\nv\t3\t3\t5\t1\n";

/// A repair worked out by hand: its answer, the weights that it leaves and their
/// coordinates. The outer triangle is in front.
pub struct Repair {
    pub n: usize,
    pub triangles: &'static [u16],
    pub weights: Vec<i64>,
    pub answer: Answer<usize>,
    pub left: Vec<i64>,
    pub coordinates: Vec<i64>,
}

impl Repair {
    /// The listing of its job, or 13 as a text has it, without the count.
    pub fn listing(&self) -> Answer<String> {
        let raises = self
            .answer
            .map_err(|refusal| Refusal::plain(refusal.number))?;
        let (n, total) = (self.n, self.left.iter().sum::<i64>());
        let mut listing = format!("pack-map\t{n}\t{total}\t{raises}\n");
        for (v, b) in self.coordinates.chunks(3).enumerate() {
            listing += &format!("v\t{v}\t{}\t{}\t{}\n", b[0], b[1], b[2]);
        }
        Ok(listing)
    }
}

/// Row 13 after so many raises.
pub const fn stopped(count: usize) -> Answer<usize> {
    Err(Refusal {
        number: 13,
        extra: Extra::Count(count),
    })
}

/// Weights, the answer, and the weights left.
type Case<const K: usize> = ([i64; K], Answer<usize>, [i64; K]);

/// Half the limit: twice that and 1 is the limit.
const HALF: i64 = LIMIT / 2;

/// P1. The raise of the only triangle is by 1 - N.
const ON_PAIR: [Case<1>; 4] = [
    ([1], Ok(0), [1]),
    ([0], Ok(1), [1]),
    ([-7], Ok(1), [1]),
    ([-LIMIT], Ok(1), [1]),
];

/// The tetra, on which vertex 3 is at (w2, w1, w3). The area of a triangle is its
/// weight times N, and its raise is by 1 plus the larger of these: its weight
/// taken from 0; the largest of 0 and the two other weights, less N.
const ON_TETRA: [Case<3>; 8] = [
    // P6
    ([5, 3, -1], Ok(1), [5, 3, 1]),
    // P7: N is 0, and the first raise is by 1 either way.
    ([0; 3], Ok(3), [1; 3]),
    // P8 since C-21: no area is 0 or less, but N is -3. By 4 either way, then by 3 and 2.
    ([-1; 3], Ok(3), [3, 2, 1]),
    // The same from its first raise on: N is 1.
    ([3, -1, -1], Ok(2), [3, 2, 1]),
    // Of these areas only the second is below 0. N is -2; the first triangle's own raise is by
    // 1 + 5 + 2, past 1 - N. Then the third one's is by 1 + 6.
    ([-1, 5, -6], Ok(2), [7, 5, 1]),
    // Row 13's example: the first raise, by 2 - N, would pass the limit.
    ([1, 2 - LIMIT, 1], stopped(0), [1, 2 - LIMIT, 1]),
    // No area is 0 or less; the first raise, by 1 - N, would pass the limit.
    ([-1, -1, 2 - LIMIT], stopped(0), [-1, -1, 2 - LIMIT]),
    // The first raise is by 1 - N and brings the sum to the limit; the second triangle is flat.
    ([-1, 0, -HALF], stopped(1), [HALF + 1, 0, -HALF]),
];

/// P3 with (1, 3, 4) as inner triangle 1, which has no side on the rim.
const INSIDE: [u16; 18] = [0, 2, 1, 1, 3, 4, 0, 3, 2, 3, 1, 2, 0, 1, 4, 3, 0, 4];

/// With the weights u, x, y, z, s vertex 3 is at (y, x, u + z + s) and vertex 4 at
/// (y + u, x + s, z). Here x is -M, and of the others only u is not 0. The first
/// triangle has area u times u. Its own raise is by 1 - u, and 1 - N is M more: u
/// becomes M + 1 and N 1. Then (0, 3, 2) is turned and has m = M, from its corners
/// at 3 and at 2: x becomes 1. Now (3, 1, 2) and (0, 1, 4) are flat with m = 0,
/// and (3, 0, 4) is upright: its area is u.
const ON_INSIDE: [Case<5>; 5] = [
    ([-3, -5, 0, 0, 0], Ok(4), [6, 1, 1, 1, 0]),
    // N is 0.
    ([5, -5, 0, 0, 0], Ok(4), [6, 1, 1, 1, 0]),
    // N is 1.
    ([6, -5, 0, 0, 0], Ok(3), [6, 1, 1, 1, 0]),
    // The first raise brings the sum to the limit, and past it.
    ([0, -HALF, 0, 0, 0], Ok(4), [HALF + 1, 1, 1, 1, 0]),
    ([0, -HALF - 1, 0, 0, 0], stopped(0), [0, -HALF - 1, 0, 0, 0]),
];

/// The coordinates of the inner vertices by the weights.
type Inner<const K: usize> = fn(&[i64; K]) -> Vec<i64>;

const IN_PAIR: Inner<1> = |_| vec![];
const IN_TETRA: Inner<3> = |w| vec![w[1], w[0], w[2]];
const IN_INSIDE: Inner<5> = |&[u, x, y, z, s]| vec![y, x, u + z + s, y + u, x + s, z];

/// The coordinates of weights; 0, 1 and 2 are the outer vertices.
fn drawn<const K: usize>(inner: Inner<K>, weights: &[i64; K]) -> Vec<i64> {
    let total = weights.iter().sum();
    let corners = vec![total, 0, 0, 0, total, 0, 0, 0, total];
    [corners, inner(weights)].concat()
}

/// The cases of a mesh.
fn repairs_on<const K: usize>(
    n: usize,
    triangles: &'static [u16],
    cases: &[Case<K>],
    inner: Inner<K>,
) -> Vec<Repair> {
    let repair = |(weights, answer, left): &Case<K>| Repair {
        n,
        triangles,
        weights: weights.to_vec(),
        answer: *answer,
        left: left.to_vec(),
        coordinates: drawn(inner, left),
    };
    cases.iter().map(repair).collect()
}

/// P6 to P8, row 13's example, and repairs with N below 1 or just 1.
pub fn repairs() -> Vec<Repair> {
    [
        repairs_on(3, &PAIR, &ON_PAIR, IN_PAIR),
        repairs_on(4, &TETRA, &ON_TETRA, IN_TETRA),
        repairs_on(5, &INSIDE, &ON_INSIDE, IN_INSIDE),
    ]
    .into_iter()
    .flatten()
    .collect()
}

/// Lows and highs for the weights, and the low and the high coordinates or the
/// refusal. The outer triangle is in front.
pub struct Ranges {
    pub n: usize,
    pub triangles: &'static [u16],
    pub lows: Vec<i64>,
    pub highs: Vec<i64>,
    pub answer: Answer<[Vec<i64>; 2]>,
}

/// Lows, highs, and the number of the refusal, 0 for none.
type RangeCase<const K: usize> = ([i64; K], [i64; K], u8);

const RANGES_ON_PAIR: [RangeCase<1>; 9] = [
    ([2], [7], 0),
    ([-7], [-7], 0),
    ([-LIMIT], [LIMIT], 0),
    ([1], [0], 29),
    ([i64::MAX], [i64::MIN], 29),
    // 9 by the lows alone, by the highs alone, by both.
    ([-LIMIT - 1], [0], 9),
    ([0], [LIMIT + 1], 9),
    ([i64::MIN], [i64::MAX], 9),
    ([i64::MIN], [i64::MIN], 9),
];

const RANGES_ON_TETRA: [RangeCase<3>; 11] = [
    ([4, 3, 1], [6, 3, 2], 0),
    ([-1; 3], [1; 3], 0),
    ([-LIMIT, 0, 0], [0, 0, LIMIT], 0),
    // In the first triangle alone, in the second, in the last.
    ([1, 0, 0], [0; 3], 29),
    ([0; 3], [1, -1, 1], 29),
    ([5, 5, 6], [5; 3], 29),
    // 29 comes before 9.
    ([LIMIT, 1, 0], [LIMIT, 0, 1], 29),
    ([0, 0, i64::MAX], [0, i64::MAX, i64::MIN], 29),
    ([-LIMIT, -1, 0], [0; 3], 9),
    ([0; 3], [LIMIT, 0, 1], 9),
    ([i64::MIN, i64::MIN, 0], [0, i64::MAX, i64::MAX], 9),
];

const RANGES_ON_INSIDE: [RangeCase<5>; 3] = [
    ([1, 2, 3, 4, 5], [6, 2, 9, 5, 7], 0),
    ([-9, 0, -1, 0, 0], [-8, 0, 1, 3, 0], 0),
    ([1, 2, 3, 4, 5], [1, 2, 3, 3, 5], 29),
];

/// The cases of a mesh.
fn ranges_on<const K: usize>(
    n: usize,
    triangles: &'static [u16],
    cases: &[RangeCase<K>],
    inner: Inner<K>,
) -> Vec<Ranges> {
    let ranges = |(lows, highs, number): &RangeCase<K>| Ranges {
        n,
        triangles,
        lows: lows.to_vec(),
        highs: highs.to_vec(),
        answer: match number {
            0 => Ok([drawn(inner, lows), drawn(inner, highs)]),
            _ => Err(Refusal::plain(*number)),
        },
    };
    cases.iter().map(ranges).collect()
}

/// Ranges that are accepted, with equal ends and with sums at the limit among
/// them, and refused by 29 and by 9.
pub fn ranges() -> Vec<Ranges> {
    [
        ranges_on(3, &PAIR, &RANGES_ON_PAIR, IN_PAIR),
        ranges_on(4, &TETRA, &RANGES_ON_TETRA, IN_TETRA),
        ranges_on(5, &INSIDE, &RANGES_ON_INSIDE, IN_INSIDE),
    ]
    .into_iter()
    .flatten()
    .collect()
}
