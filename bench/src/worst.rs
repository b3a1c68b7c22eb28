//! The longest times of each proved call over spheres of both shapes and weights of every kind,
//! refused ones too.

use crate::{calls_proved, clock, micros, Lent};
use second::spheres::KINDS;
use second::{Work, TEXT_VERTICES};
use std::time::Duration;

/// The calls, and whether weights matter to them.
const CALLS: [(&str, bool); 8] = [
    ("check", false),
    ("labels", false),
    ("forward", true),
    ("range", true),
    ("backward", true),
    ("repair", true),
    ("snapping", false),
    ("job", true),
];
/// Spheres of each shape, and runs of each call on one input, of which the least counts.
const SPHERES: u64 = 3;
const RUNS: usize = 3;

/// The least time of some runs.
fn least(name: &str, start: &Lent) -> Duration {
    let call = calls_proved::call(name);
    let run = |_| {
        let mut lent = start.clone();
        clock(|| _ = call(&mut Work::default(), &mut lent))
    };
    (0..RUNS).map(run).min().expect("there are runs")
}

/// A line for each call: its name, microseconds, and on what.
pub fn run(n: usize) {
    let mut longest = CALLS.map(|_| (Duration::ZERO, String::new()));
    for shape in ["random", "nest"] {
        for seed in 1..=SPHERES {
            let mut start = Lent::new(n, seed, shape);
            for kind in KINDS {
                start.weigh(seed, kind);
                for ((name, weighed), most) in CALLS.iter().zip(&mut longest) {
                    let there = *name != "job" || TEXT_VERTICES.contains(&n);
                    if there && (*weighed || kind == KINDS[0]) {
                        let time = least(name, &start);
                        let weights = if *weighed {
                            format!(", {kind} weights")
                        } else {
                            String::new()
                        };
                        if time > most.0 {
                            *most = (time, format!("{shape}{weights}"));
                        }
                    }
                }
            }
        }
    }
    for ((name, _), (time, on)) in CALLS.iter().zip(longest) {
        if !on.is_empty() {
            println!("{name}\t{}\t{on}", micros(time));
        }
    }
}
