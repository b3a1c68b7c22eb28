//! Labels by peeling: the frontier runs from v0 to v1 over what remains, and
//! the least vertex on it that has no chord goes next. Near linear: chords are
//! counted as vertices join, and each joining vertex scans its sides once.

use crate::mesh::{next, prev, slot, Mesh, RIM};
use crate::minset::MinSet;
use crate::{exact, Answer, Sizes, Work};

/// Half the range of a count: no change of 4096 brings it near two.
const FAR: u16 = 1 << 15;

#[derive(Default)]
pub struct Labels {
    /// Label of each corner; the outer triangle's corner at v_c holds c.
    pub at: Vec<u8>,
    /// Vertices on the frontier.
    on: Vec<bool>,
    /// Frontier vertices among the neighbours of a frontier vertex: two where
    /// it has no chord. Those of v0 and v1 start out of reach of two.
    touching: Vec<u16>,
    /// Dart from a frontier vertex to the one before it, in what remains.
    fan: Vec<u16>,
    /// All frontier vertices without a chord, and some that have got one.
    free: MinSet,
    joining: Vec<u16>,
}

impl Labels {
    /// Labels every inner corner of an accepted mesh.
    pub fn peel(&mut self, mesh: &Mesh) {
        self.at.resize(mesh.corner.len(), 0);
        self.on.clear();
        self.on.resize(mesh.n, false);
        self.touching.clear();
        self.touching.resize(mesh.n, 0);
        self.fan.resize(mesh.n, 0);
        self.free.reset(mesh.n);
        for (d, (c, touching)) in RIM.into_iter().zip([(0, FAR), (2, 2), (1, FAR)]) {
            let v = mesh.corner[d] as usize;
            self.at[d] = c;
            self.on[v] = true;
            self.touching[v] = touching;
        }
        let [_, _, v2] = mesh.rim();
        self.fan[v2] = mesh.opposite(RIM[0]) as u16;
        self.free.insert(v2);
        while let Some(v) = self.free.first() {
            self.free.remove(v);
            if self.touching[v] > 2 {
                continue;
            }
            let beside = self.remove(mesh, v);
            self.join(mesh);
            for &x in self.joining.iter().chain(&beside) {
                if self.touching[x as usize] == 2 {
                    self.free.insert(x as usize);
                }
            }
        }
    }

    /// The corner of inner triangle t that carries 0.
    #[inline]
    pub fn zero(&self, t: usize) -> usize {
        match self.at[3 * t] {
            0 => 3 * t,
            c => 3 * t + 3 - c as usize,
        }
    }

    /// Takes v off the frontier and labels its remaining triangles from the v0
    /// side on. Leaves the vertices that it uncovers in `joining`, and returns
    /// its two neighbours on the frontier.
    fn remove(&mut self, mesh: &Mesh, v: usize) -> [u16; 2] {
        self.on[v] = false;
        self.joining.clear();
        let mut d = self.fan[v] as usize;
        let before = mesh.corner[next(d)];
        let (at, fan) = (&mut self.at[..], &mut self.fan[..]);
        loop {
            let (base, back) = (next(d), prev(d));
            at[d] = 2;
            at[base] = 0;
            at[back] = 1;
            let u = mesh.corner[back];
            fan[u as usize] = mesh.turn[back];
            d = mesh.turn[d] as usize;
            if self.on[u as usize] {
                self.touching[before as usize] -= 1;
                self.touching[u as usize] -= 1;
                return [before, u];
            }
            self.joining.push(u);
        }
    }

    /// Puts the uncovered vertices on the frontier one by one, each counted at
    /// its neighbours there.
    fn join(&mut self, mesh: &Mesh) {
        let (on, touching) = (&mut self.on[..], &mut self.touching[..]);
        for &x in &self.joining {
            let mut own = 0;
            for d in mesh.around(x as usize) {
                let one = u16::from(on[d.head as usize]);
                own += one;
                touching[d.head as usize] += one;
            }
            touching[x as usize] = own;
            on[x as usize] = true;
        }
    }
}

/// The labels as a call.
pub fn labels(
    work: &mut Work,
    n: usize,
    outer: usize,
    triangles: &[u16],
    labels: &mut [u8],
    scratch: &mut [i64],
) -> Answer<()> {
    let sizes = Sizes::of(n)?;
    exact(&[
        (triangles.len(), sizes.triangles),
        (labels.len(), sizes.labels),
        (scratch.len(), sizes.scratch),
    ])?;
    scratch.fill(0);
    work.open(n, outer, triangles)?;
    for t in work.mesh.inner() {
        let to = 3 * slot(t);
        labels[to..to + 3].copy_from_slice(&work.labels.at[3 * t..3 * t + 3]);
    }
    Ok(())
}
