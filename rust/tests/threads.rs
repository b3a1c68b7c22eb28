//! Calls on many threads at once, each on its own buffers, and on a small stack.

mod common;

use common::*;
use second::spheres::moved;
use second::text::Job;
use std::thread;

/// What all calls make of the stack of n vertices with weights of a seed.
#[derive(Debug, PartialEq)]
struct Made {
    labels: Vec<u8>,
    coordinates: Vec<i64>,
    ranged: [Vec<i64>; 2],
    weights: Vec<i64>,
    repaired: Repaired,
    points: Vec<i64>,
    listing: Vec<u8>,
}

fn make(n: usize, triangles: &[u16], seed: u64) -> Made {
    let weights = signed(2 * n - 5, seed);
    let shares: Vec<f64> = signed(2 * n, seed)
        .iter()
        .map(|&w| w as f64 / 7.0)
        .collect();
    let text = Job::write(n, triangles, &weights);
    let coordinates = forward(n, 0, triangles, &weights).unwrap();
    assert_eq!(coordinates, stack_coordinates(n, &weights));
    let highs: Vec<i64> = weights.iter().map(|w| w + 1).collect();
    Made {
        labels: labels(n, 0, triangles).unwrap(),
        ranged: forward_range(n, 0, triangles, &weights, &highs).unwrap(),
        weights: backward(n, 0, triangles, &coordinates).unwrap(),
        coordinates,
        repaired: repair(n, 0, triangles, &weights),
        points: snap_points(n, &shares, 24).unwrap(),
        listing: job(&text, packmap::JOB_BYTES).unwrap(),
    }
}

/// Eight threads over the same triangles, each with twenty sets of weights.
#[test]
fn at_once_as_one_after_another() {
    for n in [5, 64, 256] {
        let triangles = stack(n);
        let run = |first: u64| -> Vec<Made> {
            (first..first + 20)
                .map(|seed| make(n, &triangles, seed))
                .collect()
        };
        let alone: Vec<_> = (0..8).map(run).collect();
        let together: Vec<_> = thread::scope(|scope| {
            let threads: Vec<_> = (0..8).map(|k| scope.spawn(move || run(k))).collect();
            threads.into_iter().map(|t| t.join().unwrap()).collect()
        });
        assert_eq!(together, alone);
    }
}

/// Runs on a thread with little more stack than a call may use.
fn on_stack(bytes: usize, run: impl FnOnce() + Send + 'static) {
    let spare = 16_384;
    let thread = thread::Builder::new().stack_size(bytes + spare);
    thread.spawn(run).unwrap().join().unwrap();
}

#[test]
fn within_the_stack() {
    let (n, outer) = (4096, 4094);
    let (triangles, shares) = (moved(&stack(n), 0, outer), vec![0.3; 2 * n]);
    let (mut weights, mut labels) = (signed(2 * n - 5, 1), stale_bytes(6 * n - 15));
    let (mut b, mut high, mut scratch) = (stale(3 * n), stale(3 * n), stale(10 * n));
    on_stack(packmap::STACK, move || {
        packmap::check(n, outer, &triangles, &mut scratch).unwrap();
        packmap::labels(n, outer, &triangles, &mut labels, &mut scratch).unwrap();
        packmap::forward(n, outer, &triangles, &weights, &mut b, &mut scratch).unwrap();
        let (w, low) = (&weights, &mut b);
        packmap::forward_range(n, outer, &triangles, w, w, low, &mut high, &mut scratch).unwrap();
        packmap::backward(n, outer, &triangles, &b, &mut weights, &mut scratch).unwrap();
        packmap::repair(n, outer, &triangles, &mut weights, &mut b, &mut scratch).unwrap();
        packmap::snap_points(n, &shares, 24, &mut b).unwrap();
    });
    let text = Job::write(256, &stack(256), &signed(507, 1));
    let mut listing = stale_bytes(packmap::JOB_BYTES);
    on_stack(packmap::JOB_STACK, move || {
        packmap::job(&text, &mut listing).unwrap();
    });
}
