//! The stack of up to 4,096 vertices, its outer triangle in front and at other places: labels, the
//! maps and repair, with answers known by hand.

mod common;

use common::*;
use second::spheres::moved;
use second::text::Job;

/// Stacks with their outer triangle in front, behind it, amid the others and at the end: n, its
/// place, and the triangles. The inner triangles are the same ones in the same order.
fn stacks<const K: usize>(sizes: [usize; K]) -> Vec<(usize, usize, Vec<u16>)> {
    let places = |n: usize| [0, 1, n - 2, 2 * n - 5].map(|outer| (n, outer));
    let placed = |(n, outer)| (n, outer, moved(&stack(n), 0, outer));
    sizes.into_iter().flat_map(places).map(placed).collect()
}

#[test]
fn maps_there_and_back() {
    for (n, outer, triangles) in stacks([3, 4, 1000, 4096]) {
        assert_eq!(check(n, outer, &triangles), Ok(()));
        let in_turn = [0, 1, 2].repeat(2 * n - 5);
        assert_eq!(labels(n, outer, &triangles), Ok(in_turn));
        for seed in 0..3 {
            let weights = signed(2 * n - 5, seed);
            let coordinates = stack_coordinates(n, &weights);
            let there = forward(n, outer, &triangles, &weights);
            assert_eq!(there.as_ref(), Ok(&coordinates));
            let highs: Vec<i64> = weights.iter().map(|w| w + w.abs()).collect();
            let ranged = forward_range(n, outer, &triangles, &weights, &highs);
            let high = stack_coordinates(n, &highs);
            assert_eq!(ranged, Ok([coordinates.clone(), high]));
            assert_eq!(backward(n, outer, &triangles, &coordinates), Ok(weights));
        }
    }
}

/// What repair makes of weights that are all 0. All areas are 0 and each raise is by 1: the first
/// two triangles, after which the right ones are no longer flat; then each left one in turn, and
/// the last. These are n - 1 raises, n being 4 or more. It makes the same of weights of which the
/// first is -W and the others are 0: N is -W, and the first triangle, which is not flat then, is
/// raised by 1 + W, which is both its own raise and 1 - N.
fn zero_raised(n: usize) -> Vec<i64> {
    let raised = |t: usize| i64::from(t % 2 == 0 || t == 1);
    (0..2 * n - 5).map(raised).collect()
}

#[test]
fn repair_of_zero_weights() {
    for (n, outer, triangles) in stacks([4, 1000, 4096]) {
        let raised = zero_raised(n);
        let coordinates = stack_coordinates(n, &raised);
        for first in [0, -1, -7, -L] {
            let mut weights = vec![0; 2 * n - 5];
            weights[0] = first;
            let answer = repair(n, outer, &triangles, &weights);
            let wanted = (Ok(n as u64 - 1), raised.clone(), coordinates.clone());
            assert_eq!(answer, wanted);
        }
    }
}

#[test]
fn job_of_zero_weights() {
    for n in [4, 100, 256] {
        let raised = zero_raised(n);
        let total: i64 = raised.iter().sum();
        let mut listing = format!("pack-map\t{n}\t{total}\t{}\n", n - 1);
        let coordinates = stack_coordinates(n, &raised);
        for (v, b) in coordinates.chunks_exact(3).enumerate() {
            listing += &format!("v\t{v}\t{}\t{}\t{}\n", b[0], b[1], b[2]);
        }
        let text = Job::write(n, &stack(n), &vec![0; 2 * n - 5]);
        let wanted = Ok(listing.into_bytes());
        assert_eq!(job(&text, packmap::JOB_BYTES), wanted);
    }
}

/// N is 1 or more, no triangle is left flat or turned, the coordinates are those of the weights, a
/// weight is raised at most once, and the count is that of the weights that were.
#[test]
fn repair_of_signed_weights() {
    let n = 1000;
    let triangles = stack(n);
    for seed in 0..5 {
        let weights = signed(2 * n - 5, seed);
        let (answer, raised, coordinates) = repair(n, 0, &triangles, &weights);
        assert_eq!(coordinates, stack_coordinates(n, &raised));
        assert!(raised.iter().sum::<i64>() >= 1);
        let mut inner = triangles[3..].chunks_exact(3);
        assert!(inner.all(|t| area(&coordinates, t) > 0));
        let pairs = || weights.iter().zip(&raised);
        assert!(pairs().all(|(old, new)| old <= new));
        let changed = pairs().filter(|(old, new)| old != new).count();
        assert_eq!(answer, Ok(changed as u64));
    }
}
