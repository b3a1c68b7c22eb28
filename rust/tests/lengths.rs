//! Lengths for every n, and row 2 for each slice of each call, before row 21.

mod common;

use common::{stale, stale_bytes};
use packmap::*;
use second::shells::TETRA;

#[test]
fn lengths_by_the_paper() {
    for n in (3..=4096).chain([1 << 20, 1 << 40]) {
        assert_eq!(triangles_len(n), 3 * (2 * n - 4));
        assert_eq!(labels_len(n), 3 * (2 * n - 5));
        assert_eq!(weights_len(n), 2 * n - 5);
        assert_eq!(coordinates_len(n), 3 * n);
        assert_eq!(scratch_len(n), 10 * n);
        assert_eq!(points_len(n), 2 * n);
    }
}

#[test]
fn lengths_below_3_and_at_the_end() {
    let of = |f: fn(usize) -> usize, n: usize| f(n);
    for n in 0..3 {
        for f in [triangles_len, labels_len, weights_len] {
            assert_eq!(of(f, n), 0);
        }
        assert_eq!(coordinates_len(n), 3 * n);
        assert_eq!(scratch_len(n), 10 * n);
        assert_eq!(points_len(n), 2 * n);
    }
    for f in [
        triangles_len,
        labels_len,
        weights_len,
        coordinates_len,
        scratch_len,
        points_len,
    ] {
        assert_eq!(of(f, usize::MAX), usize::MAX);
    }
    // The last n whose number of weights fits: 2n - 5 is usize::MAX.
    assert_eq!(weights_len((1 << 63) + 2), usize::MAX);
    assert_eq!(weights_len((1 << 63) + 1), usize::MAX - 2);
}

#[test]
fn lengths_in_constants() {
    const SCRATCH: [i64; scratch_len(4)] = [0; scratch_len(4)];
    let mut scratch = SCRATCH;
    assert_eq!(check(4, 0, &TETRA, &mut scratch), Ok(()));
}

/// Each list of lengths with one of them changed: one less, one more, none at all.
fn changed<const K: usize>(exact: [usize; K]) -> Vec<[usize; K]> {
    let mut all = vec![];
    for i in 0..K {
        for len in [exact[i] - 1, exact[i] + 1, 0] {
            let mut lens = exact;
            lens[i] = len;
            all.push(lens);
        }
    }
    all
}

/// The tetra's triangles, cut off or with one number more.
fn tetra(len: usize) -> Vec<u16> {
    TETRA.into_iter().chain([0]).take(len).collect()
}

/// The tetra's lengths.
const TRIANGLES: usize = 12;
const LABELS: usize = 9;
const WEIGHTS: usize = 3;
const COORDINATES: usize = 12;
const SCRATCH: usize = 40;
const POINTS: usize = 8;

/// An outer number that row 21 refuses, were it asked.
const NO_PLACE: usize = 4;

/// 24 words a vertex, as before C-20, are too many in every call on a mesh.
#[test]
fn row_2_of_the_scratch_before() {
    let mut labelled = stale_bytes(LABELS);
    let (mut weights, mut coordinates) = (stale(WEIGHTS), stale(COORDINATES));
    let (w, mut high) = (stale(WEIGHTS), stale(COORDINATES));
    let mut scratch = stale(24 * 4);
    let answers = [
        check(4, 0, &TETRA, &mut scratch),
        labels(4, 0, &TETRA, &mut labelled, &mut scratch),
        forward(4, 0, &TETRA, &weights, &mut coordinates, &mut scratch),
        forward_range(
            4,
            0,
            &TETRA,
            &w,
            &w,
            &mut coordinates,
            &mut high,
            &mut scratch,
        ),
        backward(4, 0, &TETRA, &coordinates, &mut weights, &mut scratch),
        repair(4, 0, &TETRA, &mut weights, &mut coordinates, &mut scratch).map(|_| ()),
    ];
    assert_eq!(answers, [Err(Refusal::Length); 6]);
    assert_eq!(scratch, stale(24 * 4));
}

#[test]
fn row_2_of_check() {
    for [t, s] in changed([TRIANGLES, SCRATCH]) {
        let mut scratch = stale(s);
        let answer = check(4, NO_PLACE, &tetra(t), &mut scratch);
        assert_eq!(answer, Err(Refusal::Length));
        assert_eq!(scratch, stale(s));
    }
}

#[test]
fn row_2_of_labels() {
    for [t, l, s] in changed([TRIANGLES, LABELS, SCRATCH]) {
        let (mut written, mut scratch) = (stale_bytes(l), stale(s));
        let answer = labels(4, NO_PLACE, &tetra(t), &mut written, &mut scratch);
        assert_eq!(answer, Err(Refusal::Length));
        assert_eq!((written, scratch), (stale_bytes(l), stale(s)));
    }
}

#[test]
fn row_2_of_the_maps() {
    for [t, w, b, s] in changed([TRIANGLES, WEIGHTS, COORDINATES, SCRATCH]) {
        let (mut weights, mut coordinates, mut scratch) = (stale(w), stale(b), stale(s));
        let (t, outer) = (tetra(t), NO_PLACE);
        let answers = [
            forward(4, outer, &t, &weights, &mut coordinates, &mut scratch),
            backward(4, outer, &t, &coordinates, &mut weights, &mut scratch),
            repair(4, outer, &t, &mut weights, &mut coordinates, &mut scratch).map(|_| ()),
        ];
        assert_eq!(answers, [Err(Refusal::Length); 3]);
        assert_eq!(
            (weights, coordinates, scratch),
            (stale(w), stale(b), stale(s))
        );
    }
}

/// Each low is above its high, which 29 would refuse, were it asked.
#[test]
fn row_2_of_the_range() {
    let exact = [
        TRIANGLES,
        WEIGHTS,
        WEIGHTS,
        COORDINATES,
        COORDINATES,
        SCRATCH,
    ];
    for [t, l, h, low, high, s] in changed(exact) {
        let (lows, highs) = (vec![1; l], vec![0; h]);
        let (mut to_low, mut to_high, mut scratch) = (stale(low), stale(high), stale(s));
        let answer = forward_range(
            4,
            NO_PLACE,
            &tetra(t),
            &lows,
            &highs,
            &mut to_low,
            &mut to_high,
            &mut scratch,
        );
        assert_eq!(answer, Err(Refusal::Length));
        assert_eq!(
            (to_low, to_high, scratch),
            (stale(low), stale(high), stale(s))
        );
    }
}

#[test]
fn row_2_of_snapping() {
    for [p, b] in changed([POINTS, COORDINATES]) {
        let mut coordinates = stale(b);
        let answer = snap_points(4, &vec![0.5; p], 0, &mut coordinates);
        assert_eq!(answer, Err(Refusal::Length));
        assert_eq!(coordinates, stale(b));
    }
}
