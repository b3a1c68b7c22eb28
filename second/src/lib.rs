//! The second program for integer shell maps: what every module shares.
//!
//! Refusals with their extras, the limits, the exact slice lengths, and the
//! reusable buffers of a call. Each call lives in the module of its subject
//! and works on lent slices; a `Work` may be kept from call to call.

pub mod c;
pub mod damage;
pub mod labels;
pub mod maps;
pub mod mesh;
pub mod minset;
pub mod naive;
pub mod repair;
pub mod shells;
pub mod snap;
pub mod spheres;
pub mod text;
pub mod trials;

/// Largest sum of absolute weights, and largest absolute coordinate.
pub const LIMIT: i64 = 1_073_741_823;
/// Fewest and most vertices of a mesh.
pub const VERTICES: std::ops::RangeInclusive<usize> = 3..=4096;
/// Fewest and most vertices of a mesh in a job text.
pub const TEXT_VERTICES: std::ops::RangeInclusive<usize> = 3..=256;

/// What a refusal carries besides its number.
#[derive(Clone, Copy, Debug, PartialEq)]
pub enum Extra {
    Nothing,
    /// The vertex of 7 and 25.
    Vertex(usize),
    /// Raises made before 13.
    Count(usize),
    /// The share that 16 turned away.
    Share(f64),
    /// The line of 17, counted from 1.
    Line(usize),
}

/// A refusal: its number in the table and its extra.
#[derive(Clone, Copy, Debug, PartialEq)]
pub struct Refusal {
    pub number: u8,
    pub extra: Extra,
}

impl Refusal {
    pub const fn plain(number: u8) -> Self {
        Refusal {
            number,
            extra: Extra::Nothing,
        }
    }

    /// 7 or 25 at a vertex.
    pub const fn at(number: u8, vertex: usize) -> Self {
        Refusal {
            number,
            extra: Extra::Vertex(vertex),
        }
    }
}

/// The numbers of the table.
pub const NUMBERS: [u8; 22] = [
    1, 2, 3, 4, 5, 6, 7, 8, 9, 10, 11, 12, 13, 14, 15, 16, 17, 18, 19, 21, 25, 29,
];

/// A call's answer.
pub type Answer<T> = Result<T, Refusal>;

/// The exact lengths of the slices lent for n vertices.
#[derive(Clone, Copy, Debug)]
pub struct Sizes {
    pub triangles: usize,
    pub labels: usize,
    pub weights: usize,
    pub coordinates: usize,
    pub scratch: usize,
    pub points: usize,
}

impl Sizes {
    /// Row 1, or the lengths.
    pub fn of(n: usize) -> Answer<Sizes> {
        if !VERTICES.contains(&n) {
            return Err(Refusal::plain(1));
        }
        Ok(Sizes {
            triangles: 3 * (2 * n - 4),
            labels: 3 * (2 * n - 5),
            weights: 2 * n - 5,
            coordinates: 3 * n,
            scratch: 10 * n,
            points: 2 * n,
        })
    }
}

/// Row 2: each pair is a lent length and the exact one.
pub fn exact(lengths: &[(usize, usize)]) -> Answer<()> {
    if lengths.iter().all(|(lent, wanted)| lent == wanted) {
        Ok(())
    } else {
        Err(Refusal::plain(2))
    }
}

/// Row 9: the sum of the absolute weights, or a refusal. It is given up once
/// past the limit, and the limit plus 2^63 is still below 2^64.
pub fn weigh(weights: &[i64]) -> Answer<i64> {
    let mut sum = 0u64;
    for w in weights {
        sum += w.unsigned_abs();
        if sum > LIMIT as u64 {
            return Err(Refusal::plain(9));
        }
    }
    Ok(sum as i64)
}

/// Buffers kept from call to call.
#[derive(Default)]
pub struct Work {
    pub mesh: mesh::Mesh,
    pub labels: labels::Labels,
    pub walks: maps::Walks,
    pub raises: repair::Raises,
    pub job: text::Job,
    /// Weights found by the backward map before row 9 has passed them.
    found: Vec<i64>,
}

impl Work {
    /// The mesh check and the labels that the maps go by. That the labels are
    /// our own peeling's is decided here and nowhere else.
    pub fn open(&mut self, n: usize, outer: usize, triangles: &[u16]) -> Answer<()> {
        self.mesh.load(n, outer, triangles)?;
        self.labels.peel(&self.mesh);
        Ok(())
    }
}
