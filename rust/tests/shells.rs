//! Document 01's checked shells, P1 to P11, and repairs and ranges worked out by hand, through the
//! calls; those with a mesh, with their outer triangle at every place too.

mod common;

use common::*;
use packmap::Refusal;
use second::naive::{self, Verdict};
use second::shells::{ranges, repairs, EXAMPLE, FIVE, LISTING, PAIR, TETRA};
use second::spheres::moved;
use second::text::Job;
use second::Extra;

#[test]
fn p1_to_p3_labels() {
    let five = [0, 1, 2, 0, 1, 2, 0, 1, 2, 1, 2, 0, 2, 0, 1];
    let shells: [(usize, &[u16], &[u8]); 3] = [
        (3, &PAIR, &[0, 1, 2]),
        (4, &TETRA, &[0, 1, 2, 0, 1, 2, 0, 1, 2]),
        (5, &FIVE, &five),
    ];
    for (n, shell, wanted) in shells {
        for outer in 0..2 * n - 4 {
            let triangles = moved(shell, 0, outer);
            assert_eq!(check(n, outer, &triangles), Ok(()));
            assert_eq!(labels(n, outer, &triangles), Ok(wanted.to_vec()));
        }
    }
}

#[test]
fn p4_p5_maps() {
    for outer in 0..6 {
        let five = moved(&FIVE, 0, outer);
        let unit = vec![5, 0, 0, 0, 5, 0, 0, 0, 5, 1, 1, 3, 2, 2, 1];
        assert_eq!(forward(5, outer, &five, &[1; 5]), Ok(unit.clone()));
        assert_eq!(backward(5, outer, &five, &unit), Ok(vec![1; 5]));
    }
    for (outer, tetra) in tetras() {
        let drawn = vec![10, 0, 0, 0, 10, 0, 0, 0, 10, 3, 5, 2];
        assert_eq!(forward(4, outer, &tetra, &[5, 3, 2]), Ok(drawn.clone()));
        assert_eq!(backward(4, outer, &tetra, &drawn), Ok(vec![5, 3, 2]));
    }
}

/// The tetra with its outer triangle at each place.
fn tetras() -> [(usize, Vec<u16>); 4] {
    [0, 1, 2, 3].map(|outer| (outer, moved(&TETRA, 0, outer)))
}

/// The areas of the tetra's inner triangles, all labelled 0, 1, 2.
fn areas(b: &[i64]) -> Vec<i64> {
    TETRA[3..].chunks_exact(3).map(|t| area(b, t)).collect()
}

#[test]
fn p6_one_raise_by_2() {
    let before = forward(4, 0, &TETRA, &[5, 3, -1]).unwrap();
    assert_eq!(areas(&before), [35, 21, -7]);
    for (outer, tetra) in tetras() {
        let after = vec![9, 0, 0, 0, 9, 0, 0, 0, 9, 3, 5, 1];
        let repaired = repair(4, outer, &tetra, &[5, 3, -1]);
        assert_eq!(repaired, (Ok(1), vec![5, 3, 1], after));
    }
}

#[test]
fn p7_three_raises() {
    for (outer, tetra) in tetras() {
        let after = vec![3, 0, 0, 0, 3, 0, 0, 0, 3, 1, 1, 1];
        let repaired = repair(4, outer, &tetra, &[0; 3]);
        assert_eq!(repaired, (Ok(3), vec![1; 3], after));
    }
}

/// No triangle is flat or turned before, but N is -3.
#[test]
fn p8_three_raises() {
    let before = forward(4, 0, &TETRA, &[-1; 3]).unwrap();
    assert_eq!(areas(&before), [3; 3]);
    for (outer, tetra) in tetras() {
        let after = vec![6, 0, 0, 0, 6, 0, 0, 0, 6, 2, 3, 1];
        let repaired = repair(4, outer, &tetra, &[-1; 3]);
        assert_eq!(repaired, (Ok(3), vec![3, 2, 1], after));
    }
}

/// Repairs worked out by hand, most with N below 1, and their jobs.
#[test]
fn repairs_by_hand() {
    for known in repairs() {
        let answer = known.answer.map(|raises| raises as u64);
        let answer = answer.map_err(|refusal| match refusal.extra {
            Extra::Count(raises) => Refusal::Raise {
                raises: Some(raises as u64),
            },
            _ => panic!("these are refused with 13 alone"),
        });
        let wanted = (answer, known.left.clone(), known.coordinates.clone());
        for outer in 0..2 * known.n - 4 {
            let triangles = moved(known.triangles, 0, outer);
            let repaired = repair(known.n, outer, &triangles, &known.weights);
            assert_eq!(repaired, wanted);
        }
        let text = Job::write(known.n, known.triangles, &known.weights);
        let listing = known.listing().map(String::into_bytes);
        let untold = Refusal::Raise { raises: None };
        let wanted = listing.map_err(|_| untold);
        assert_eq!(job(&text, packmap::JOB_BYTES), wanted);
    }
}

#[test]
fn ranges_by_hand() {
    for known in ranges() {
        for outer in 0..2 * known.n - 4 {
            let triangles = moved(known.triangles, 0, outer);
            let ranged = forward_range(known.n, outer, &triangles, &known.lows, &known.highs);
            let by_number = ranged.map_err(|refusal| refusal.number());
            let wanted = known.answer.clone();
            assert_eq!(by_number, wanted.map_err(|refusal| refusal.number));
        }
    }
}

#[test]
fn p9_to_p11_points() {
    let points = snap_points(3, &[0.5, -0.0, 0.5, -0.0, 0.5, -0.0], 4);
    assert_eq!(points, Ok([8, 0, 8].repeat(3)));
    let largest = -f64::from_bits(1);
    for scale in 4..=24 {
        let points = snap_points(3, &[largest; 6], scale);
        assert_eq!(points, Ok([0, 0, 1 << scale].repeat(3)));
    }
    let points = snap_points(3, &[2.0; 6], 24);
    let third = (1 << 24) - 2 * 33_554_432;
    assert_eq!(points, Ok([33_554_432, 33_554_432, third].repeat(3)));
}

/// The sample of 8 vertices opened at place 4, as the listing beside it has it.
#[test]
fn the_sample_opened_elsewhere() {
    let text = include_bytes!("../../samples/shell-8.job");
    let Verdict::Job(n, triangles, weights) = naive::read(text) else {
        panic!("the sample is a job");
    };
    let (answer, raised, coordinates) = repair(n, 4, &triangles, &weights);
    let total: i64 = raised.iter().sum();
    let mut listing = format!("pack-map\t{n}\t{total}\t{}\n", answer.unwrap());
    for (v, b) in coordinates.chunks_exact(3).enumerate() {
        listing += &format!("v\t{v}\t{}\t{}\t{}\n", b[0], b[1], b[2]);
    }
    let wanted = include_str!("../../samples/shell-8-at-4.listing");
    assert_eq!(listing, wanted);
}

#[test]
fn the_example_job() {
    assert_eq!(
        job(EXAMPLE.as_bytes(), packmap::JOB_BYTES),
        Ok(LISTING.into())
    );
}
