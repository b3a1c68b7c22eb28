//! Slow references, one file for each call. Each is spelled out from the papers
//! with sets and lists, and shares no code with the fast modules. No triangle is
//! moved: the outer one is that at its place, and the inner ones are the others.
//! Here are the types that they share.

mod labels;
mod maps;
mod mesh;
mod range;
mod repair;
mod snap;
mod text;

pub use labels::{by_label, labels};
pub use maps::Labelled;
pub use mesh::refusal;
pub use range::range_refusal;
pub use repair::{areas, first_raise, next_raise, own_raise, repair_by, too_heavy, Raise};
pub use snap::snapped;
pub use text::{packmap, read, Verdict};

/// The corners of a triangle, in order.
pub type Triple = [usize; 3];
/// The ends of a side.
type Side = (usize, usize);

fn triples(triangles: &[u16]) -> Vec<Triple> {
    let wide: Vec<usize> = triangles.iter().map(|&v| v.into()).collect();
    wide.chunks(3).map(|t| [t[0], t[1], t[2]]).collect()
}

/// The places of the inner triangles, in listed order: all but the outer one's.
fn inner(all: &[Triple], outer: usize) -> impl Iterator<Item = usize> {
    (0..all.len()).filter(move |&place| place != outer)
}

fn sides(t: &Triple) -> [Side; 3] {
    [(t[0], t[1]), (t[1], t[2]), (t[2], t[0])]
}
