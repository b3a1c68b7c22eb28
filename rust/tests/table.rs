//! Each row of the table of refusals by its example, in every call that has it. What stays in the
//! buffers is looked at after each call.

mod common;

use common::*;
use packmap::Refusal;
use second::shells::{EXAMPLE, LISTING, PAIR, ROWS, TETRA};
use second::text::Job;

/// Coordinates on the tetra with v1 and vertex 3 as given.
fn placed(total: i64, v1: [i64; 3], v3: [i64; 3]) -> Vec<i64> {
    [[total, 0, 0], v1, [0, 0, total], v3].concat()
}

/// Row 13's example.
const STOPPED: [i64; 3] = [1, -1_073_741_821, 1];

#[test]
fn row_1_vertex_count() {
    for n in [0, 1, 2, 4097, 65_536, usize::MAX] {
        let refused = Refusal::VertexCount;
        for outer in [0, usize::MAX] {
            assert_eq!(check(n, outer, &TETRA), Err(refused));
            assert_eq!(labels(n, outer, &TETRA), Err(refused));
            assert_eq!(forward(n, outer, &TETRA, &[1; 3]), Err(refused));
            let ranged = forward_range(n, outer, &TETRA, &[1; 3], &[0; 3]);
            assert_eq!(ranged, Err(refused));
            assert_eq!(backward(n, outer, &TETRA, &[0; 12]), Err(refused));
            assert_eq!(repair(n, outer, &TETRA, &[1; 3]).0, Err(refused));
        }
        assert_eq!(snap_points(n, &[0.5; 8], 0), Err(refused));
    }
    for n in [0, 1, 2, 257, 65_535] {
        // The lines after the first are not looked at.
        let text = format!("pack-map\t{n}\nx");
        assert_eq!(job(text.as_bytes(), 100), Err(Refusal::VertexCount));
    }
}

#[test]
fn row_2_length() {
    let refused = Refusal::Length;
    for outer in [0, 3, 4, usize::MAX] {
        assert_eq!(check(4, outer, &TETRA[..9]), Err(refused));
        assert_eq!(labels(4, outer, &TETRA[..9]), Err(refused));
        assert_eq!(forward(4, outer, &TETRA, &[1; 2]), Err(refused));
        for (lows, highs) in [([1; 3].as_slice(), [0; 2].as_slice()), (&[1; 2], &[0; 3])] {
            let ranged = forward_range(4, outer, &TETRA, lows, highs);
            assert_eq!(ranged, Err(refused));
        }
        assert_eq!(backward(4, outer, &TETRA, &[0; 11]), Err(refused));
        assert_eq!(repair(4, outer, &TETRA, &[1; 2]).0, Err(refused));
    }
    assert_eq!(snap_points(4, &[0.5; 7], 0), Err(refused));
}

/// The calls on a mesh, all of which refuse it so. Rows of weights and coordinates come after those
/// of the mesh.
fn all_refuse(n: usize, outer: usize, triangles: &[u16], refused: Refusal) {
    let heavy = vec![i64::MIN; 2 * n - 5];
    let far = vec![i64::MAX; 3 * n];
    assert_eq!(check(n, outer, triangles), Err(refused));
    assert_eq!(labels(n, outer, triangles), Err(refused));
    assert_eq!(forward(n, outer, triangles, &heavy), Err(refused));
    let ranged = forward_range(n, outer, triangles, &heavy, &heavy);
    assert_eq!(ranged, Err(refused));
    assert_eq!(backward(n, outer, triangles, &far), Err(refused));
    assert_eq!(repair(n, outer, triangles, &heavy).0, Err(refused));
}

/// Asked before the rows of the mesh.
#[test]
fn row_21_outer_number() {
    let spheres: [(usize, &[u16]); 2] = [(3, &PAIR), (4, &TETRA)];
    let meshes = spheres.into_iter().chain(ROWS.map(|(_, n, t)| (n, t)));
    for (n, triangles) in meshes {
        let third = usize::MAX / 3 + 1;
        for outer in [2 * n - 4, 2 * n - 3, 1 << 16, 1 << 32, third, usize::MAX] {
            all_refuse(n, outer, triangles, Refusal::OuterNumber);
        }
    }
    assert_eq!(check(4, 3, &TETRA), Ok(()));
}

#[test]
fn rows_3_to_8_and_25_meshes() {
    let refusals = [
        Refusal::VertexNumber,
        Refusal::VertexTwice,
        Refusal::SideTwice,
        Refusal::SideAlone,
        Refusal::Ring { vertex: Some(3) },
        Refusal::Stray { vertex: Some(7) },
        Refusal::Pieces,
    ];
    for ((row, n, triangles), refused) in ROWS.into_iter().zip(refusals) {
        assert_eq!(refused.number(), row.number);
        for outer in 0..2 * n - 4 {
            all_refuse(n, outer, triangles, refused);
        }
        let text = Job::write(n, triangles, &vec![-2_147_483_648; 2 * n - 5]);
        let told = match refused {
            Refusal::Ring { .. } => Refusal::Ring { vertex: None },
            Refusal::Stray { .. } => Refusal::Stray { vertex: None },
            same => same,
        };
        assert_eq!(job(&text, 0), Err(told));
    }
}

/// Asked after 21 and before the rows of the mesh.
#[test]
fn row_29_range() {
    let spheres: [(usize, &[u16]); 2] = [(3, &PAIR), (4, &TETRA)];
    let meshes = spheres.into_iter().chain(ROWS.map(|(_, n, t)| (n, t)));
    for (n, triangles) in meshes {
        let len = 2 * n - 5;
        for place in [0, len / 2, len - 1] {
            for (low, high) in [(1, 0), (i64::MAX, i64::MIN)] {
                let (mut lows, mut highs) = (vec![i64::MIN; len], vec![i64::MAX; len]);
                (lows[place], highs[place]) = (low, high);
                let ranged = |outer| forward_range(n, outer, triangles, &lows, &highs);
                for outer in 0..2 * n - 4 {
                    assert_eq!(ranged(outer), Err(Refusal::Range));
                }
                assert_eq!(ranged(2 * n - 4), Err(Refusal::OuterNumber));
            }
        }
    }
}

#[test]
fn row_9_weights() {
    let refused = Refusal::Weights;
    for weights in [[L, 1, 0], [-L, 0, -1], [0, i64::MIN, 0], [i64::MAX; 3]] {
        assert_eq!(forward(4, 0, &TETRA, &weights), Err(refused));
        assert_eq!(repair(4, 0, &TETRA, &weights).0, Err(refused));
        let ranged = forward_range(4, 0, &TETRA, &weights, &weights);
        assert_eq!(ranged, Err(refused));
    }
    // By the lows alone, and by the highs alone.
    for (lows, highs) in [([-L, 0, -1], [0; 3]), ([0; 3], [L, 0, 1])] {
        let ranged = forward_range(4, 0, &TETRA, &lows, &highs);
        assert_eq!(ranged, Err(refused));
    }
    let text = Job::write(4, &TETRA, &[L, 1, 0]);
    assert_eq!(job(&text, 0), Err(refused));
    // On the tetra vertex 3 is at (w2, w1, w3): here the weights are L, 1, -1.
    let coordinates = placed(L, [0, L, 0], [1, L, -1]);
    assert_eq!(backward(4, 0, &TETRA, &coordinates), Err(refused));
    let limit = tetra_coordinates([L, 0, 0]);
    assert_eq!(forward(4, 0, &TETRA, &[L, 0, 0]), Ok(limit.clone()));
    assert_eq!(backward(4, 0, &TETRA, &limit), Ok(vec![L, 0, 0]));
}

#[test]
fn rows_10_to_12_coordinates() {
    let cases = [
        (Refusal::Coordinate, placed(9, [0, 9, 0], [L + 1, 0, 0])),
        (Refusal::Coordinate, placed(9, [0, 9, 0], [0, -L - 1, 0])),
        (Refusal::Coordinate, placed(9, [0, 9, 0], [0, 0, i64::MIN])),
        (Refusal::Corner, placed(9, [1, 8, 0], [3, 5, 1])),
        (Refusal::Sum, placed(9, [0, 9, 0], [3, 5, 2])),
        // Each comes before the next, and 9 last.
        (Refusal::Coordinate, placed(9, [1, 8, 0], [L + 1, 0, 0])),
        (Refusal::Corner, placed(9, [1, 8, 0], [3, 5, 2])),
        (Refusal::Sum, placed(L, [0, L, 0], [L, L, L])),
    ];
    for (refused, coordinates) in cases {
        assert_eq!(backward(4, 0, &TETRA, &coordinates), Err(refused));
    }
}

#[test]
fn row_13_raise() {
    let none = Refusal::Raise { raises: Some(0) };
    let left = (Err(none), STOPPED.to_vec(), tetra_coordinates(STOPPED));
    assert_eq!(repair(4, 0, &TETRA, &STOPPED), left);
    let text = Job::write(4, &TETRA, &STOPPED);
    let untold = Refusal::Raise { raises: None };
    assert_eq!(job(&text, 0), Err(untold));
}

/// On the tetra the area numbers are N w1, N w2, N w3. With -1, 0, L - 1 the first triangle is
/// turned. Its m is 1, from its corner 3, so it is raised by 2: weights 1, 0, L - 1 and N = L. The
/// second one is flat then, its m is 0, and a raise by 1 would take the sum past L.
#[test]
fn row_13_after_a_raise() {
    let one = Refusal::Raise { raises: Some(1) };
    let after = [1, 0, L - 1];
    let left = (Err(one), after.to_vec(), tetra_coordinates(after));
    assert_eq!(repair(4, 0, &TETRA, &[-1, 0, L - 1]), left);
}

#[test]
fn row_14_scale() {
    for scale in [1, 2, 3, 25, 26, u32::MAX] {
        assert_eq!(snap_points(3, &[f64::NAN; 6], scale), Err(Refusal::Scale));
    }
    for scale in (4..=24).chain([0]) {
        let r = if scale == 0 { 20 } else { scale };
        let point = [1 << (r - 1), 1 << (r - 2), 1 << (r - 2)];
        let points = [0.5, 0.25].repeat(3);
        assert_eq!(snap_points(3, &points, scale), Ok(point.repeat(3)));
    }
}

#[test]
fn row_15_not_finite() {
    for share in [f64::INFINITY, f64::NEG_INFINITY, f64::NAN, -f64::NAN] {
        for at in 0..6 {
            let mut shares = [0.5; 6];
            shares[at] = share;
            assert_eq!(snap_points(3, &shares, 0), Err(Refusal::NotFinite));
        }
    }
}

#[test]
fn row_16_share() {
    let above = f64::from_bits(2.0_f64.to_bits() + 1);
    for share in [2.5, -2.5, above, -above, f64::MAX, f64::MIN] {
        // The first share that is refused counts.
        let shares = [0.5, share, f64::NAN, 0.5, 3.0, 0.5];
        assert_eq!(snap_points(3, &shares, 0), Err(Refusal::Share { share }));
    }
    let shares = [f64::NAN, 2.5, 0.5, 0.5, 0.5, 0.5];
    assert_eq!(snap_points(3, &shares, 0), Err(Refusal::NotFinite));
}

#[test]
fn row_17_line() {
    let broken = |line| Err(Refusal::Line { line });
    assert_eq!(job(b"pack-map\t4\nt\t01", 100), broken(2));
    let text = EXAMPLE.replacen("t\t0\t2\t1\n", "t\t01\t2\t1\n", 1);
    assert_eq!(job(text.as_bytes(), 100), broken(2));
    // A missing line, an extra one, and one without its LF.
    assert_eq!(job(b"", 100), broken(1));
    for (at, _) in EXAMPLE.match_indices('\n') {
        let (whole, cut) = (&EXAMPLE[..=at], &EXAMPLE[..at]);
        let lines = whole.lines().count();
        assert_eq!(job(cut.as_bytes(), 100), broken(lines));
        if lines < 8 {
            assert_eq!(job(whole.as_bytes(), 100), broken(lines + 1));
        }
    }
    for more in ["\n", "w\t1\n", "x"] {
        let text = format!("{EXAMPLE}{more}");
        assert_eq!(job(text.as_bytes(), 100), broken(9));
    }
}

#[test]
fn row_18_listing() {
    for room in [5, 0, LISTING.len() - 1] {
        assert_eq!(job(EXAMPLE.as_bytes(), room), Err(Refusal::Listing));
    }
    for room in [LISTING.len(), LISTING.len() + 1, 16_384, 70_000] {
        assert_eq!(job(EXAMPLE.as_bytes(), room), Ok(LISTING.into()));
    }
}

#[test]
fn row_19_text() {
    assert_eq!(job(&[b'x'; 16_385], 100), Err(Refusal::Text));
    assert_eq!(job(&[b'x'; 16_384], 100), Err(Refusal::Line { line: 1 }));
}
