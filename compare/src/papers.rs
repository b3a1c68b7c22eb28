//! Document 01's checked shells through the proved calls: P1 to P5, with the
//! paper's own numbers.

use crate::meshes::stale_scratch;
use crate::tally::{told, Tally};
use second::shells::{FIVE, PAIR, TETRA};

fn labels(tally: &mut Tally, n: usize, mesh: &[u16], wanted: &[u8]) {
    let mut ours = vec![9; wanted.len()];
    let mut scratch = stale_scratch(n);
    let answer = told(packmap::labels(n, 0, mesh, &mut ours, &mut scratch));
    let same = answer.is_ok() && ours == wanted && scratch.iter().all(|&x| x == 0);
    tally.count(answer, same, || format!("labels {ours:?}"));
}

/// Weights to coordinates and back.
fn maps(tally: &mut Tally, n: usize, mesh: &[u16], weights: &[i64], wanted: &[i64]) {
    let mut scratch = stale_scratch(n);
    let mut there = vec![7; wanted.len()];
    let answer = told(packmap::forward(
        n,
        0,
        mesh,
        weights,
        &mut there,
        &mut scratch,
    ));
    tally.count(answer, answer.is_ok() && there == wanted, || {
        format!("coordinates {there:?}")
    });
    let mut back = vec![7; weights.len()];
    let answer = told(packmap::backward(
        n,
        0,
        mesh,
        wanted,
        &mut back,
        &mut scratch,
    ));
    tally.count(answer, answer.is_ok() && back == weights, || {
        format!("weights {back:?}")
    });
}

pub fn run() -> Tally {
    let mut tally = Tally::new("P1 to P5", &[0]);
    labels(&mut tally, 3, &PAIR, &[0, 1, 2]);
    labels(&mut tally, 4, &TETRA, &[0, 1, 2, 0, 1, 2, 0, 1, 2]);
    let five = [0, 1, 2, 0, 1, 2, 0, 1, 2, 1, 2, 0, 2, 0, 1];
    labels(&mut tally, 5, &FIVE, &five);
    let unit = [5, 0, 0, 0, 5, 0, 0, 0, 5, 1, 1, 3, 2, 2, 1];
    maps(&mut tally, 5, &FIVE, &[1; 5], &unit);
    let tetra = [10, 0, 0, 0, 10, 0, 0, 0, 10, 3, 5, 2];
    maps(&mut tally, 4, &TETRA, &[5, 3, 2], &tetra);
    tally
}
