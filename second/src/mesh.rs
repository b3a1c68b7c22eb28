//! The mesh check, and the accepted mesh as darts.
//!
//! Dart d = 3t + i runs from corner i of triangle t to the corner after it, so
//! one number names a corner, the dart leaving it, and a side of t. Here, and
//! nowhere else, the outer triangle is moved to the front: the others follow in
//! listed order, and weights and labels go by their places then.

use crate::{exact, Answer, Refusal, Sizes, Work};

/// Place of the outer triangle once it is in front.
pub const OUTER: usize = 0;

/// The outer triangle's darts: v0 to v2, v2 to v1, v1 to v0.
pub const RIM: [usize; 3] = [3 * OUTER, 3 * OUTER + 1, 3 * OUTER + 2];

/// Place of an inner triangle among the inner ones, counted from 0.
#[inline]
pub fn slot(t: usize) -> usize {
    t - 1
}

/// The dart after d in its triangle.
#[inline]
pub fn next(d: usize) -> usize {
    match d % 3 {
        2 => d - 2,
        _ => d + 1,
    }
}

/// The dart before d in its triangle.
#[inline]
pub fn prev(d: usize) -> usize {
    match d % 3 {
        0 => d + 2,
        _ => d - 1,
    }
}

/// A dart as its tail sees it.
#[derive(Clone, Copy, Default)]
pub struct Leaving {
    dart: u16,
    pub head: u16,
    /// Third vertex of the triangle: tail of the dart that arrives here.
    back: u16,
}

#[derive(Default)]
pub struct Mesh {
    pub n: usize,
    /// Vertex at each corner: the tail of each dart.
    pub corner: Vec<u16>,
    /// From the dart v to a of triangle (v, a, b) to the dart v to b of the
    /// triangle that follows round v; opposite of the dart b to v.
    pub turn: Vec<u16>,
    /// Darts grouped by tail; those of v stand at first[v]..first[v + 1].
    leaving: Vec<Leaving>,
    first: Vec<u16>,
    seen: Vec<u32>,
    ring: Vec<u16>,
    reached: Vec<bool>,
    queue: Vec<u16>,
}

impl Mesh {
    /// v0, v1, v2.
    pub fn rim(&self) -> [usize; 3] {
        [RIM[0], RIM[2], RIM[1]].map(|d| self.corner[d] as usize)
    }

    /// Places of the inner triangles.
    pub fn inner(&self) -> impl Iterator<Item = usize> {
        (0..self.corner.len() / 3).filter(|&t| t != OUTER)
    }

    /// The dart that runs the other way along the same side.
    #[inline]
    pub fn opposite(&self, d: usize) -> usize {
        self.turn[next(d)] as usize
    }

    /// Darts leaving v.
    #[inline]
    pub fn around(&self, v: usize) -> &[Leaving] {
        &self.leaving[self.first[v] as usize..self.first[v + 1] as usize]
    }

    /// Rows 21 and 3 to 8, and 25 beside 7, on triangles of exact length; linear
    /// time. The triangles have to be copied in any case, so that moving the
    /// outer one to the front takes no time of its own.
    pub fn load(&mut self, n: usize, outer: usize, triangles: &[u16]) -> Answer<()> {
        has_place(triangles, outer)?;
        if triangles.iter().copied().max() >= Some(n as u16) {
            return Err(Refusal::plain(3));
        }
        let twice = |t: &[u16]| t[0] == t[1] || t[1] == t[2] || t[2] == t[0];
        if triangles.chunks_exact(3).any(twice) {
            return Err(Refusal::plain(4));
        }
        self.n = n;
        self.corner.clear();
        let (before, rest) = triangles.split_at(3 * outer);
        let (first, after) = rest.split_at(3);
        for part in [first, before, after] {
            self.corner.extend_from_slice(part);
        }
        self.group();
        self.pair()?;
        self.pieces()
    }

    /// Groups the darts by tail with a counting sort.
    fn group(&mut self) {
        self.first.clear();
        self.first.resize(self.n + 1, 0);
        for &v in &self.corner {
            self.first[v as usize] += 1;
        }
        let mut sum = 0;
        for f in &mut self.first {
            sum += *f;
            *f = sum;
        }
        self.leaving.resize(self.corner.len(), Leaving::default());
        let (first, leaving) = (&mut self.first[..], &mut self.leaving[..]);
        for (t, corners) in self.corner.chunks_exact(3).enumerate() {
            for i in 0..3 {
                let (head, back) = (corners[(i + 1) % 3], corners[(i + 2) % 3]);
                let f = &mut first[corners[i] as usize];
                *f -= 1;
                let dart = (3 * t + i) as u16;
                leaving[*f as usize] = Leaving { dart, head, back };
            }
        }
    }

    /// Rows 5, 6, and 7 with 25. At v each leaving dart is noted at its head;
    /// the dart that arrives in the same triangle finds its opposite at its
    /// tail. One ring means that turning from one dart meets all of them; the
    /// first vertex without one is kept.
    fn pair(&mut self) -> Answer<()> {
        self.seen.clear();
        self.seen.resize(self.n, 0);
        self.turn.resize(self.corner.len(), 0);
        self.ring.resize(self.corner.len(), 0);
        let (seen, turn, ring) = (&mut self.seen[..], &mut self.turn[..], &mut self.ring[..]);
        let (mut lacking, mut broken) = (false, None);
        for (v, ends) in self.first.windows(2).enumerate() {
            let stamp = v as u32 + 1;
            let darts = &self.leaving[ends[0] as usize..ends[1] as usize];
            for (i, d) in darts.iter().enumerate() {
                let note = &mut seen[d.head as usize];
                if *note >> 16 == stamp {
                    return Err(Refusal::plain(5));
                }
                *note = stamp << 16 | i as u32;
            }
            for (i, d) in darts.iter().enumerate() {
                let note = seen[d.back as usize];
                if note >> 16 == stamp {
                    ring[i] = note as u16;
                    turn[d.dart as usize] = darts[note as u16 as usize].dart;
                } else {
                    lacking = true;
                    ring[i] = 0;
                }
            }
            // Bounded, as the arriving darts may yet turn out doubled.
            let (mut met, mut at) = (0, 0);
            while met < darts.len() {
                met += 1;
                at = ring[at] as usize;
                if at == 0 {
                    break;
                }
            }
            if darts.is_empty() {
                broken = broken.or(Some(Refusal::at(25, v)));
            } else if at != 0 || met != darts.len() {
                broken = broken.or(Some(Refusal::at(7, v)));
            }
        }
        if lacking {
            return Err(Refusal::plain(6));
        }
        broken.map_or(Ok(()), Err)
    }

    /// Row 8. With one ring at each vertex, pieces of triangles are pieces of
    /// vertices. The queue takes each neighbour and keeps those that are new.
    fn pieces(&mut self) -> Answer<()> {
        self.reached.clear();
        self.reached.resize(self.n, false);
        self.queue.resize(self.n + 1, 0);
        let (reached, queue) = (&mut self.reached[..], &mut self.queue[..]);
        let (leaving, first) = (&self.leaving[..], &self.first[..]);
        queue[0] = 0;
        reached[0] = true;
        let (mut from, mut to) = (0, 1);
        while from < to {
            let v = queue[from] as usize;
            from += 1;
            for d in &leaving[first[v] as usize..first[v + 1] as usize] {
                queue[to] = d.head;
                to += !reached[d.head as usize] as usize;
                reached[d.head as usize] = true;
            }
        }
        if to != self.n {
            return Err(Refusal::plain(8));
        }
        Ok(())
    }
}

/// Row 21.
pub fn has_place(triangles: &[u16], outer: usize) -> Answer<()> {
    if outer >= triangles.len() / 3 {
        return Err(Refusal::plain(21));
    }
    Ok(())
}

/// The mesh check as a call.
pub fn check(
    work: &mut Work,
    n: usize,
    outer: usize,
    triangles: &[u16],
    scratch: &mut [i64],
) -> Answer<()> {
    let sizes = Sizes::of(n)?;
    exact(&[
        (triangles.len(), sizes.triangles),
        (scratch.len(), sizes.scratch),
    ])?;
    scratch.fill(0);
    work.mesh.load(n, outer, triangles)
}
