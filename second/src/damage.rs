//! Damaged meshes, outer numbers, weights, coordinates, shares and texts. Each
//! comes with the refusal that it must meet, known from the way it was damaged.

use crate::spheres::{any_weights, renumbered, scramble, sphere, torus, weights, Rng};
use crate::text::Job;
use crate::{Refusal, LIMIT};
use std::collections::BTreeSet;

/// A mesh of fitting length and its refusal.
pub struct BadMesh {
    pub n: usize,
    pub triangles: Vec<u16>,
    pub refusal: Refusal,
}

/// Numbers that a damaged mesh can be asked to meet.
pub const MESH_NUMBERS: [u8; 7] = [3, 4, 5, 6, 7, 25, 8];

fn sides(triangles: &[u16]) -> BTreeSet<(u16, u16)> {
    let around = |t: &[u16]| [(t[0], t[1]), (t[1], t[2]), (t[2], t[0])];
    triangles.chunks(3).flat_map(around).collect()
}

/// A mesh that is refused with `number`, one of `MESH_NUMBERS`, of about `n`
/// vertices.
pub fn mesh(rng: &mut Rng, number: u8, n: usize) -> BadMesh {
    let n = n.max(8);
    match number {
        3 => beyond(rng, n),
        4 => doubled_corner(rng, n),
        5 => doubled_side(rng, n),
        6 => lacking_side(rng, n),
        7 | 25 => loop {
            let bad = ringless(rng, n);
            if bad.refusal.number == number {
                break bad;
            }
        },
        _ => pieces(rng, n),
    }
}

/// 3: a number that is no vertex, with a doubled corner besides at times.
fn beyond(rng: &mut Rng, n: usize) -> BadMesh {
    let mut triangles = sphere(rng, n);
    let at = rng.below(triangles.len());
    let most = [n, n + 1, 65_535][rng.below(3)];
    if rng.chance(2) {
        let t = rng.below(triangles.len() / 3);
        triangles[3 * t] = triangles[3 * t + 1];
    }
    triangles[at] = most as u16;
    BadMesh {
        n,
        triangles,
        refusal: Refusal::plain(3),
    }
}

/// 4: one corner of a triangle moved onto another.
fn doubled_corner(rng: &mut Rng, n: usize) -> BadMesh {
    let mut triangles = sphere(rng, n);
    let (t, i) = (rng.below(triangles.len() / 3), rng.below(3));
    triangles[3 * t + i] = triangles[3 * t + (i + 1 + rng.below(2)) % 3];
    BadMesh {
        n,
        triangles,
        refusal: Refusal::plain(4),
    }
}

/// 5: a triangle listed backwards, or in place of another, or rotated there.
fn doubled_side(rng: &mut Rng, n: usize) -> BadMesh {
    let mut triangles = sphere(rng, n);
    let count = triangles.len() / 3;
    let t = rng.below(count);
    if rng.chance(2) {
        triangles.swap(3 * t, 3 * t + 1);
    } else {
        let (u, r) = ((t + 1 + rng.below(count - 1)) % count, rng.below(3));
        for i in 0..3 {
            triangles[3 * t + i] = triangles[3 * u + (i + r) % 3];
        }
    }
    BadMesh {
        n,
        triangles,
        refusal: Refusal::plain(5),
    }
}

/// 6: a triangle replaced by one whose sides are all new, or keep one old side.
/// The sides given up leave their opposites alone.
fn lacking_side(rng: &mut Rng, n: usize) -> BadMesh {
    loop {
        let mut triangles = sphere(rng, n);
        let t = rng.below(triangles.len() / 3);
        let old: BTreeSet<u16> = triangles[3 * t..3 * t + 3].iter().copied().collect();
        let keep = [0, 0, 2][rng.below(3)];
        for i in keep..3 {
            triangles[3 * t + i] = rng.below(n) as u16;
        }
        let new: BTreeSet<u16> = triangles[3 * t..3 * t + 3].iter().copied().collect();
        let count = sides(&triangles).len();
        if new.len() == 3 && new != old && count == triangles.len() {
            return BadMesh {
                n,
                triangles,
                refusal: Refusal::plain(6),
            };
        }
    }
}

/// 7 or 25, whichever the lowest vertex without one ring asks for: two spheres
/// that share two vertices and no side; or a torus with two vertices in no
/// triangle; or a sphere with some pairs of far vertices made one each, whose
/// other numbers are then in no triangle. The count of triangles fits each time.
fn ringless(rng: &mut Rng, n: usize) -> BadMesh {
    loop {
        let (n, list, pinched, stray): (usize, _, Vec<usize>, Vec<usize>) = match rng.below(4) {
            0 => {
                let small = 4 + rng.below((n - 6).max(1));
                let large = (n + 2).saturating_sub(small).max(4);
                let mut list = sphere(rng, small);
                let shift = |v: &u16| match *v {
                    0 | 1 => *v,
                    v => v + small as u16 - 2,
                };
                list.extend(sphere(rng, large).iter().map(shift));
                (small + large - 2, list, vec![0, 1], vec![])
            }
            1 => {
                let n = n.max(9);
                (n, torus(rng, n - 2), vec![], vec![n - 2, n - 1])
            }
            _ => {
                let mut list = sphere(rng, n);
                let pairs = 1 + rng.below(2.min(n / 12) + 1);
                for v in list.iter_mut().filter(|v| usize::from(**v) < 2 * pairs) {
                    *v -= *v % 2;
                }
                let odd = (0..pairs).map(|i| 2 * i + 1);
                (n, list, (0..pairs).map(|i| 2 * i).collect(), odd.collect())
            }
        };
        // Unlucky draws double a side or a corner; draw again.
        let apart = list
            .chunks(3)
            .all(|t| t[0] != t[1] && t[1] != t[2] && t[2] != t[0]);
        if apart && sides(&list).len() == list.len() {
            let (name, triangles) = renumbered(rng, n, &list);
            let found = |number, vertices: Vec<usize>| {
                let named = vertices.into_iter().map(|v| usize::from(name[v]));
                named.min().map(|v| (v, Refusal::at(number, v)))
            };
            let refusals = [found(7, pinched), found(25, stray)];
            let lowest = refusals.into_iter().flatten().min_by_key(|found| found.0);
            return BadMesh {
                n,
                triangles,
                refusal: lowest.expect("one of both").1,
            };
        }
    }
}

/// 8: a sphere and a torus, or a sphere and two tori. Each torus makes up for
/// one piece more, so the count of triangles fits.
fn pieces(rng: &mut Rng, n: usize) -> BadMesh {
    let tori = 1 + rng.below(2);
    let (mut n, mut list) = (n.saturating_sub(7 * tori).max(3), vec![]);
    let round = rng.below(n - 2) + 3;
    list.extend(sphere(rng, round));
    let mut spare = n - round;
    n = round;
    for _ in 0..tori {
        let size = 7 + rng.below(spare + 1);
        spare -= size - 7;
        list.extend(torus(rng, size).iter().map(|v| v + n as u16));
        n += size;
    }
    BadMesh {
        n,
        triangles: scramble(rng, n, &list),
        refusal: Refusal::plain(8),
    }
}

/// An outer number that row 21 refuses for n vertices: the first two that are no
/// places, large ones of which a multiple comes round to a place if it overflows,
/// and any.
pub fn no_place(rng: &mut Rng, n: usize) -> usize {
    let (first, third) = (2 * n - 4, usize::MAX / 3 + 1);
    [
        first,
        first + 1,
        first + rng.below(9 * n),
        1 << 16,
        1 << 32,
        1 << 63,
        third,
        2 * third,
        usize::MAX - 1,
        usize::MAX,
        first + rng.below(usize::MAX - first),
    ][rng.below(11)]
}

/// Weights that row 9 refuses.
pub fn heavy(rng: &mut Rng, len: usize) -> Vec<i64> {
    let mut w = any_weights(rng, len);
    let sum: i64 = w.iter().map(|x| x.abs()).sum();
    let t = rng.below(len);
    let sign = [1, -1][rng.below(2)];
    match rng.below(6) {
        // One more than the limit.
        0 => {
            let own = LIMIT + 1 - (sum - w[t].abs());
            w[t] = own * sign;
        }
        1 => w[t] = i64::MIN,
        2 => w[t] = i64::MAX,
        // Sums that come round to 0 or to little if they overflow.
        3 => w.fill(i64::MIN),
        4 => w.fill([i64::MAX, -i64::MAX][rng.below(2)]),
        _ => w[t] = rng.within(LIMIT + 1, i64::MAX / 2) * sign,
    }
    w
}

/// Ranges of which one low is above its high, made from others: by 1, or with one end
/// or both as far off as they can be.
pub fn crossed(rng: &mut Rng, [mut lows, mut highs]: [Vec<i64>; 2]) -> [Vec<i64>; 2] {
    let t = [0, lows.len() - 1, rng.below(lows.len())][rng.below(3)];
    let high = highs[t].min(i64::MAX - 1);
    (lows[t], highs[t]) = match rng.below(4) {
        0 => (high + 1, high),
        1 => (i64::MAX, high),
        2 => (lows[t].max(i64::MIN + 1), i64::MIN),
        _ => (i64::MAX, i64::MIN),
    };
    [lows, highs]
}

/// Ranges, made from accepted ones, that row 9 refuses: by the lows alone, by the
/// highs alone, or by both.
pub fn heavy_range(rng: &mut Rng, [mut lows, mut highs]: [Vec<i64>; 2]) -> [Vec<i64>; 2] {
    let by = rng.below(3);
    if by != 0 {
        push(rng, &mut lows, -1);
    }
    if by != 1 {
        push(rng, &mut highs, 1);
    }
    [lows, highs]
}

/// Moves weights down, or up, so far that the list is past the limit.
fn push(rng: &mut Rng, list: &mut [i64], sign: i64) {
    let t = rng.below(list.len());
    let rest = list.iter().map(|w| w.abs()).sum::<i64>() - list[t].abs();
    let end = if sign < 0 { i64::MIN } else { i64::MAX };
    match rng.below(4) {
        // One more than the limit.
        0 => list[t] = (LIMIT + 1 - rest) * sign,
        1 => list[t] = end,
        // Sums that come round to little if they overflow.
        2 => list.fill(end),
        _ => list[t] = rng.within(LIMIT + 1, i64::MAX / 2) * sign,
    }
}

/// Weights, more than one, whose repair 13 stops before any raise. All weight
/// on one triangle puts every vertex on an outer one, so all other triangles
/// are flat; they weigh nothing, and the least raise of one passes the limit.
/// Or that weight is -S, S being more than half the limit: then N is -S, and
/// the first raise, of another triangle and by 1 + S or more, passes the limit.
pub fn stuck(rng: &mut Rng, len: usize) -> Vec<i64> {
    let mut w = vec![0; len];
    let t = rng.below(len);
    w[t] = if t > 0 && rng.chance(2) {
        -rng.within(LIMIT / 2 + 1, LIMIT)
    } else {
        LIMIT
    };
    w
}

/// Coordinates that row `number` (10, 11 or 12) refuses, made from accepted
/// ones of a mesh on at least four vertices.
pub fn coordinates(rng: &mut Rng, number: u8, outer: [u16; 3], good: &[i64]) -> Vec<i64> {
    let mut b = good.to_vec();
    let [v0, v2, v1] = outer.map(usize::from);
    match number {
        10 => {
            let far = [
                LIMIT + 1,
                -LIMIT - 1,
                i64::MAX,
                i64::MIN,
                rng.within(LIMIT + 1, i64::MAX / 2),
            ];
            b[rng.below(good.len())] = far[rng.below(5)];
        }
        11 => {
            // All but b0 of v0, which is N whatever it holds. Small steps keep
            // the numbers within bounds, and sums may still be N.
            let (v, c) = loop {
                let pick = ([v0, v1, v2][rng.below(3)], rng.below(3));
                if pick != (v0, 0) {
                    break pick;
                }
            };
            let step = if b[3 * v + c] > 0 { -1 } else { 1 };
            b[3 * v + c] += step;
            if rng.chance(2) && v != v0 {
                b[3 * v + (c + 1) % 3] -= step * (b[3 * v + (c + 1) % 3].abs() < LIMIT) as i64;
            }
        }
        _ => {
            let v = loop {
                let v = rng.below(good.len() / 3);
                if ![v0, v1, v2].contains(&v) {
                    break v;
                }
            };
            let c = 3 * v + rng.below(3);
            b[c] += if b[c] > 0 { -1 } else { 1 };
        }
    }
    b
}

/// A share that row 15 refuses.
pub fn not_a_number(rng: &mut Rng) -> f64 {
    let payload = rng.next() % (1 << 52);
    let sign = rng.next() << 63;
    match rng.below(3) {
        0 => f64::from_bits(sign | f64::INFINITY.to_bits()),
        1 => f64::from_bits(sign | f64::INFINITY.to_bits() | payload.max(1)),
        _ => f64::NAN,
    }
}

/// A share that row 16 refuses.
pub fn outside(rng: &mut Rng) -> f64 {
    let sign = [1.0, -1.0][rng.below(2)];
    let two = 2.0f64.to_bits();
    let infinity = f64::INFINITY.to_bits();
    let bits = match rng.below(4) {
        0 => two + 1,
        1 => infinity - 1,
        2 => 2.5f64.to_bits(),
        _ => two + 1 + rng.next() % (infinity - two - 1),
    };
    sign * f64::from_bits(bits)
}

/// A text and the number and line that its refusal prints.
pub struct BadText {
    pub text: Vec<u8>,
    pub number: u64,
    pub line: u64,
}

/// Numbers that a damaged text can be asked to meet.
pub const TEXT_NUMBERS: [u8; 12] = [1, 3, 4, 5, 6, 7, 25, 8, 9, 13, 17, 19];

/// A random job text, its lines with their LF, and its n.
pub fn lines(rng: &mut Rng) -> (usize, Vec<Vec<u8>>) {
    let n = [3, 4, 5, 9, 30][rng.below(5)];
    let triangles = sphere(rng, n);
    let text = Job::write(n, &triangles, &any_weights(rng, 2 * n - 5));
    let lines = text.split_inclusive(|&b| b == b'\n').map(<[u8]>::to_vec);
    (n, lines.collect())
}

/// A text that is refused with `number`, one of `TEXT_NUMBERS`.
pub fn text(rng: &mut Rng, number: u8) -> BadText {
    let plain = |text: Vec<u8>| BadText {
        text,
        number: number.into(),
        line: 0,
    };
    match number {
        1 => {
            // Nothing behind the first line matters.
            let (_, mut lines) = lines(rng);
            let n = [0, 1, 2, 257, 4096, 65_535, 300 + rng.below(60_000)][rng.below(7)];
            lines[0] = format!("pack-map\t{n}\n").into_bytes();
            if rng.chance(2) {
                lines.truncate(1 + rng.below(3));
            } else {
                lines[1] = b"x".to_vec();
            }
            plain(lines.concat())
        }
        3..=8 | 25 => {
            let size = 8 + rng.below(60);
            let bad = mesh(rng, number, size);
            let len = 2 * bad.n - 5;
            // Weights past the limit come after the mesh.
            let w = match rng.below(2) {
                0 => vec![i32::MIN.into(); len],
                _ => any_weights(rng, len),
            };
            plain(Job::write(bad.n, &bad.triangles, &w))
        }
        9 => {
            let n = 3 + rng.below(40);
            let triangles = sphere(rng, n);
            let mut w = weights(rng, "signed", 2 * n - 5).expect("a kind");
            let t = rng.below(w.len());
            let rest: i64 = w.iter().map(|x| x.abs()).sum::<i64>() - w[t].abs();
            w[t] = [
                i32::MIN.into(),
                i32::MAX.into(),
                LIMIT + 1 - rest,
                rest - LIMIT - 1,
            ][rng.below(4)];
            plain(Job::write(n, &triangles, &w))
        }
        13 => {
            let n = 4 + rng.below(40);
            let triangles = sphere(rng, n);
            plain(Job::write(n, &triangles, &stuck(rng, 2 * n - 5)))
        }
        19 => {
            let mut text = lines(rng).1.concat();
            let more = [16_385, 16_386, 20_000, 70_000][rng.below(4)];
            text.resize(more, b"\n0t"[rng.below(3)]);
            plain(text)
        }
        _ => broken(rng),
    }
}

/// Row 17 in many ways.
fn broken(rng: &mut Rng) -> BadText {
    let (n, mut lines) = lines(rng);
    let count = lines.len();
    // Place of a line, from 0.
    let at = rng.below(count);
    let answer = |lines: Vec<Vec<u8>>, line: usize| BadText {
        text: lines.concat(),
        number: 17,
        line: line as u64,
    };
    match rng.below(12) {
        // A text without a line, or cut short at the end of a line.
        0 => {
            lines.truncate(at);
            answer(lines, at + 1)
        }
        // Cut within a line; what is left lacks its LF.
        1 => {
            lines.truncate(at + 1);
            let keep = 1 + rng.below(lines[at].len() - 1);
            lines[at].truncate(keep);
            answer(lines, at + 1)
        }
        // More after the last line, with or without LF.
        2 => {
            let more: [&[u8]; 5] = [b"\n", b"w\t1\n", b"x", b"\0", b"w\t1"];
            lines.push(more[rng.below(5)].to_vec());
            answer(lines, count + 1)
        }
        // A t line too few: the first w line stands in the last t line's place.
        3 => {
            lines.remove(1 + rng.below(2 * n - 4));
            answer(lines, 2 * n - 3)
        }
        // A t line too many stands where the first w line belongs.
        4 => {
            let copy = 1 + rng.below(2 * n - 4);
            lines.insert(copy, lines[copy].clone());
            answer(lines, 2 * n - 2)
        }
        // A w line too many.
        5 => {
            lines.push(lines[count - 1].clone());
            answer(lines, count + 1)
        }
        // A byte put in that breaks the line wherever it stands, or an LF that
        // makes an empty line.
        6 => {
            let bytes = [b' ', b'\r', 0, b'\t', 0x80, 0xff, b'+', b'.', b'x', b'\n'];
            let byte = bytes[rng.below(10)];
            let place = match byte {
                b'\n' => 0,
                _ => rng.below(lines[at].len()),
            };
            lines[at].insert(place, byte);
            answer(lines, at + 1)
        }
        // Another opening.
        7 => {
            let names = ["T", "v", "", "pack-map ", "pack_map", "Pack-map", "tt"];
            let tab = lines[at].iter().position(|&b| b == b'\t').unwrap_or(0);
            lines[at].splice(..tab, names[rng.below(7)].bytes());
            answer(lines, at + 1)
        }
        // A field more or fewer.
        8 => {
            let last = lines[at].iter().rposition(|&b| b == b'\t').unwrap_or(0);
            lines[at].truncate(last);
            if rng.chance(2) {
                lines[at].extend(b"\t1\t1");
            }
            lines[at].push(b'\n');
            answer(lines, at + 1)
        }
        // Two broken lines: the first one counts.
        9 => {
            let other = rng.below(count);
            lines[at].insert(0, b'?');
            lines[other].insert(0, b'?');
            answer(lines, at.min(other) + 1)
        }
        // A number in a form or of a size that its place does not take.
        _ => {
            let mut forms = vec!["-0", "00", "01", "+1", "", "-", "1e3", "0x1", "--1", "1 "];
            forms.extend(["-01", "99999999999999999999", "18446744073709551617"]);
            if at < 2 * n - 3 {
                forms.extend(["65536", "-1", "4294967296"]);
            } else {
                forms.extend(["2147483648", "-2147483649", "4294967297"]);
            }
            let mut fields: Vec<&[u8]> =
                lines[at].trim_ascii_end().split(|&b| b == b'\t').collect();
            let field = 1 + rng.below(fields.len() - 1);
            fields[field] = forms[rng.below(forms.len())].as_bytes();
            lines[at] = fields.join(&b'\t');
            lines[at].push(b'\n');
            answer(lines, at + 1)
        }
    }
}
