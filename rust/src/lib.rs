//! Integer drawings of triangulated spheres: labels, coordinates from weights and back, and a
//! repair that leaves no triangle flat or turned. The functions here are safe wrappers of proved
//! calls, which are linked from one archive, `libpackmap.a`.
//!
//! | Function | Reads | Writes |
//! |---|---|---|
//! | [`check`] | triangles | nothing: tests that they form a sphere |
//! | [`labels`] | triangles | a label 0, 1, 2 for each corner of each inner triangle |
//! | [`forward`] | triangles, weights | coordinates |
//! | [`forward_range`] | triangles, a low and a high for each weight | the low and the high of each coordinate |
//! | [`backward`] | triangles, coordinates | weights |
//! | [`repair`] | triangles, weights | raised weights and their coordinates |
//! | [`snap_points`] | drawn points | coordinates |
//! | [`job`] | a job text: triangles and weights | a listing: the coordinates after repair |
//!
//! # Example
//!
//! ```
//! // A tetrahedron. The outer triangle is the one at place 0: v0 = 0, v2 = 2, v1 = 1.
//! let (n, outer) = (4, 0);
//! let triangles = [0, 2, 1, 0, 3, 2, 3, 1, 2, 0, 1, 3];
//! let mut scratch = vec![0; packmap::scratch_len(n)];
//! packmap::check(n, outer, &triangles, &mut scratch)?;
//!
//! let mut labels = vec![0; packmap::labels_len(n)];
//! packmap::labels(n, outer, &triangles, &mut labels, &mut scratch)?;
//! assert_eq!(labels, [0, 1, 2, 0, 1, 2, 0, 1, 2]);
//!
//! // From weights to coordinates, and back.
//! let mut coordinates = vec![0; packmap::coordinates_len(n)];
//! packmap::forward(n, outer, &triangles, &[5, 3, 2], &mut coordinates, &mut scratch)?;
//! assert_eq!(coordinates, [10, 0, 0, 0, 10, 0, 0, 0, 10, 3, 5, 2]);
//! let mut weights = vec![0; packmap::weights_len(n)];
//! packmap::backward(n, outer, &triangles, &coordinates, &mut weights, &mut scratch)?;
//! assert_eq!(weights, [5, 3, 2]);
//!
//! // The same weights as they were measured: from 4 to 6, 3, and from 1 to 2.
//! let (lows, highs) = ([4, 3, 1], [6, 3, 2]);
//! let (mut low, mut high) = (coordinates.clone(), coordinates.clone());
//! packmap::forward_range(n, outer, &triangles, &lows, &highs, &mut low, &mut high, &mut scratch)?;
//! assert_eq!(low, [8, 0, 0, 0, 8, 0, 0, 0, 8, 3, 4, 1]);
//! assert_eq!(high, [11, 0, 0, 0, 11, 0, 0, 0, 11, 3, 6, 2]);
//!
//! // With -1 for the 2, the last triangle is turned. One raise puts it right.
//! let mut weights = [5, 3, -1];
//! let raises = packmap::repair(n, outer, &triangles, &mut weights, &mut coordinates, &mut scratch)?;
//! assert_eq!((raises, weights), (1, [5, 3, 1]));
//! assert_eq!(coordinates, [9, 0, 0, 0, 9, 0, 0, 0, 9, 3, 5, 1]);
//!
//! // With all weights -1 no triangle is turned, but the drawing is, by half a turn: N, the sum of
//! // the weights, is -3. Repair brings it to 1 or more.
//! let mut weights = [-1, -1, -1];
//! let raises = packmap::repair(n, outer, &triangles, &mut weights, &mut coordinates, &mut scratch)?;
//! assert_eq!((raises, weights), (3, [3, 2, 1]));
//!
//! // The same tetrahedron opened at its last triangle: v0 = 0, v2 = 1, v1 = 3.
//! packmap::forward(n, 3, &triangles, &[5, 3, 2], &mut coordinates, &mut scratch)?;
//! assert_eq!(coordinates, [10, 0, 0, 0, 0, 10, 2, 5, 3, 0, 10, 0]);
//!
//! // A refusal says what is wrong.
//! let short = packmap::forward(n, outer, &triangles, &[5, 3], &mut coordinates, &mut scratch);
//! assert_eq!(short, Err(packmap::Refusal::Length));
//! # Ok::<(), packmap::Refusal>(())
//! ```
//!
//! # Meshes
//!
//! A mesh has `n` vertices, 3 to 4,096, numbered from 0, and `2n - 4` triangles of three vertex
//! numbers each, all listed in the same sense of rotation. Every call on a mesh is told the place of
//! the outer triangle, `outer`, counted from 0; the vertices of that triangle, as listed, are v0, v2,
//! v1. The other `2n - 5` are the inner ones, and weights and labels go by their order. In a job text
//! the first triangle is the outer one.
//!
//! # Slices
//!
//! Every slice has to have exactly the length that goes with `n`:
//!
//! | Slice | Length | Function |
//! |---|---|---|
//! | triangles | `3(2n - 4)` | [`triangles_len`] |
//! | labels | `3(2n - 5)` | [`labels_len`] |
//! | weights, lows, highs | `2n - 5` | [`weights_len`] |
//! | coordinates: b0, b1, b2 of each vertex | `3n` | [`coordinates_len`] |
//! | drawn points: x, y of each | `2n` | [`points_len`] |
//! | scratch | `10n` | [`scratch_len`] |
//!
//! Text and listing of [`job`] may have any length; [`JOB_BYTES`] is enough for both.
//!
//! Scratch is memory for the call to work in. It may hold anything before; after every answer it
//! holds zeros, save that [`Refusal::VertexCount`] and [`Refusal::Length`] leave it as it was. The
//! same scratch can serve one call after another.
//!
//! # What a refusal leaves
//!
//! Every slice keeps what it held, with two exceptions: scratch, as above, and [`Refusal::Raise`]
//! of [`repair`], which leaves the weights with the raises made so far and writes their
//! coordinates.
//!
//! # Threads, memory, stack
//!
//! Nothing is kept between calls: no call allocates, locks or has a state of its own, and the same
//! input gives the same output. So calls may run on many threads at once, each on its own slices;
//! slices that are only read, as the triangles, can be shared. A call on slices uses at most
//! [`STACK`] bytes of stack, [`job`] at most [`JOB_STACK`].
//!
//! # The archive
//!
//! `tools/install target/packmap` in the repository makes `target/packmap/lib/libpackmap.a`, where
//! the build looks for it. An archive elsewhere is found by the environment variable `PACKMAP_LIB`,
//! the absolute path of its folder.

#![deny(missing_docs, unsafe_op_in_unsafe_fn)]

mod c;
mod calls;
mod lengths;
mod refusal;

pub use calls::{backward, check, forward, forward_range, job, labels, repair, snap_points};
pub use lengths::{
    coordinates_len, labels_len, points_len, scratch_len, triangles_len, weights_len, JOB_BYTES,
    JOB_STACK, LEAST_VERTICES, LIMIT, MOST_JOB_VERTICES, MOST_VERTICES, STACK,
};
pub use refusal::Refusal;

/// The example in the README is run as a test.
#[cfg(doctest)]
#[doc = include_str!("../README.md")]
struct Readme;
