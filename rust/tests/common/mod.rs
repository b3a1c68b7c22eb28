//! A mesh of any size whose answers are known by hand, and the calls on buffers that held something:
//! each looks at what the call left in them.
#![allow(dead_code)]

use packmap::Refusal;

pub const L: i64 = 1_073_741_823;

/// Coordinates of the tetra's weights: vertex 3 is at (w2, w1, w3).
pub fn tetra_coordinates(w: [i64; 3]) -> Vec<i64> {
    let total = w[0] + w[1] + w[2];
    vec![total, 0, 0, 0, total, 0, 0, 0, total, w[1], w[0], w[2]]
}

/// The stack of n vertices: 2 on top, 3 to n - 1 below it in turn, all joined to 0 and 1. Its inner
/// triangles are, for each k from 3 on, a left one and a right one, then the last. The vertices are
/// removed in turn, so all labels are 0, 1, 2.
pub fn stack(n: usize) -> Vec<u16> {
    let last = n as u16 - 1;
    let pair = |k: u16| [0, k, k - 1, k, 1, k - 1];
    let mut triangles = vec![0, 2, 1];
    triangles.extend((3..=last).flat_map(pair));
    triangles.extend([0, 1, last]);
    triangles
}

/// The stack's coordinates: b1 of vertex k sums the left weights from 3 to k, b0 the right ones.
pub fn stack_coordinates(n: usize, weights: &[i64]) -> Vec<i64> {
    let total: i64 = weights.iter().sum();
    let (mut left, mut right) = (0, 0);
    let mut b = vec![total, 0, 0, 0, total, 0, 0, 0, total];
    for pair in weights.chunks_exact(2).take(n - 3) {
        left += pair[0];
        right += pair[1];
        b.extend([right, left, total - left - right]);
    }
    b
}

/// Weights from -9 to 9, other ones for another seed.
pub fn signed(len: usize, seed: u64) -> Vec<i64> {
    let mut state = seed;
    let mut next = || {
        state = state
            .wrapping_mul(6_364_136_223_846_793_005)
            .wrapping_add(1);
        (state >> 33) as i64 % 19 - 9
    };
    (0..len).map(|_| next()).collect()
}

/// The area number of an inner triangle, from its corners labelled 0, 1, 2.
pub fn area(b: &[i64], corners: &[u16]) -> i64 {
    let at = |k: usize, c: usize| b[3 * corners[k] as usize + c];
    (at(1, 0) - at(0, 0)) * (at(2, 1) - at(0, 1)) - (at(1, 1) - at(0, 1)) * (at(2, 0) - at(0, 0))
}

/// Numbers that a buffer may hold before a call.
pub fn stale(len: usize) -> Vec<i64> {
    (0..len as i64).map(|i| i * 0x9e37_79b9 - 5).collect()
}

pub fn stale_bytes(len: usize) -> Vec<u8> {
    (0..len).map(|i| (i * 7 + 3) as u8).collect()
}

/// Scratch holds zeros after every answer but 1 and 2, which leave it as it was.
pub fn look_at_scratch<T>(answer: &Result<T, Refusal>, scratch: &[i64]) {
    match answer {
        Err(Refusal::VertexCount | Refusal::Length) => assert_eq!(scratch, stale(scratch.len())),
        _ => assert!(scratch.iter().all(|&word| word == 0)),
    }
}

/// Scratch for n vertices; for as many as a mesh can have where n is more.
fn scratch_for(n: usize) -> Vec<i64> {
    stale(10 * n.min(4096))
}

pub fn check(n: usize, outer: usize, triangles: &[u16]) -> Result<(), Refusal> {
    let mut scratch = scratch_for(n);
    let answer = packmap::check(n, outer, triangles, &mut scratch);
    look_at_scratch(&answer, &scratch);
    answer
}

pub fn labels(n: usize, outer: usize, triangles: &[u16]) -> Result<Vec<u8>, Refusal> {
    let len = triangles.len().saturating_sub(3);
    let (mut labels, mut scratch) = (stale_bytes(len), scratch_for(n));
    let answer = packmap::labels(n, outer, triangles, &mut labels, &mut scratch);
    look_at_scratch(&answer, &scratch);
    if answer.is_err() {
        assert_eq!(labels, stale_bytes(len));
    }
    answer.map(|()| labels)
}

pub fn forward(
    n: usize,
    outer: usize,
    triangles: &[u16],
    weights: &[i64],
) -> Result<Vec<i64>, Refusal> {
    let len = 3 * n.min(4096);
    let (mut coordinates, mut scratch) = (stale(len), scratch_for(n));
    let answer = packmap::forward(n, outer, triangles, weights, &mut coordinates, &mut scratch);
    look_at_scratch(&answer, &scratch);
    if answer.is_err() {
        assert_eq!(coordinates, stale(len));
    }
    answer.map(|()| coordinates)
}

/// The low and the high coordinates.
pub fn forward_range(
    n: usize,
    outer: usize,
    triangles: &[u16],
    lows: &[i64],
    highs: &[i64],
) -> Result<[Vec<i64>; 2], Refusal> {
    let len = 3 * n.min(4096);
    let (mut low, mut high, mut scratch) = (stale(len), stale(len), scratch_for(n));
    let answer = packmap::forward_range(
        n,
        outer,
        triangles,
        lows,
        highs,
        &mut low,
        &mut high,
        &mut scratch,
    );
    look_at_scratch(&answer, &scratch);
    if answer.is_err() {
        assert_eq!((&low, &high), (&stale(len), &stale(len)));
    }
    answer.map(|()| [low, high])
}

pub fn backward(
    n: usize,
    outer: usize,
    triangles: &[u16],
    coordinates: &[i64],
) -> Result<Vec<i64>, Refusal> {
    let len = (triangles.len() / 3).saturating_sub(1);
    let (mut weights, mut scratch) = (stale(len), scratch_for(n));
    let answer = packmap::backward(n, outer, triangles, coordinates, &mut weights, &mut scratch);
    look_at_scratch(&answer, &scratch);
    if answer.is_err() {
        assert_eq!(weights, stale(len));
    }
    answer.map(|()| weights)
}

/// The answer, and the weights and coordinates that it left.
pub type Repaired = (Result<u64, Refusal>, Vec<i64>, Vec<i64>);

pub fn repair(n: usize, outer: usize, triangles: &[u16], weights: &[i64]) -> Repaired {
    let len = 3 * n.min(4096);
    let (mut raised, mut coordinates) = (weights.to_vec(), stale(len));
    let mut scratch = scratch_for(n);
    let answer = packmap::repair(
        n,
        outer,
        triangles,
        &mut raised,
        &mut coordinates,
        &mut scratch,
    );
    look_at_scratch(&answer, &scratch);
    if !matches!(answer, Ok(_) | Err(Refusal::Raise { .. })) {
        assert_eq!(raised, weights);
        assert_eq!(coordinates, stale(len));
    }
    (answer, raised, coordinates)
}

pub fn snap_points(n: usize, shares: &[f64], scale: u32) -> Result<Vec<i64>, Refusal> {
    let len = 3 * n.min(4096);
    let mut coordinates = stale(len);
    let answer = packmap::snap_points(n, shares, scale, &mut coordinates);
    if answer.is_err() {
        assert_eq!(coordinates, stale(len));
    }
    answer.map(|()| coordinates)
}

/// The listing, written into a buffer of `room` bytes.
pub fn job(text: &[u8], room: usize) -> Result<Vec<u8>, Refusal> {
    let mut listing = stale_bytes(room);
    let answer = packmap::job(text, &mut listing);
    let written = *answer.as_ref().unwrap_or(&0);
    assert_eq!(listing[written..], stale_bytes(room)[written..]);
    listing.truncate(written);
    answer.map(|_| listing)
}
