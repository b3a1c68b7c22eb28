//! Proved jobs per second: texts in, listings out, on several threads at once.

use crate::Lent;
use std::thread;
use std::time::{Duration, Instant};

/// Vertices of the jobs.
const SIZES: [usize; 2] = [64, 256];
/// Texts for each n, which every thread goes through in turn.
const TEXTS: u64 = 16;

/// Texts of random spheres with weights from -9 to 9.
fn texts(n: usize) -> Vec<Vec<u8>> {
    let text = |seed| {
        let mut lent = Lent::new(n, seed, "random");
        lent.weigh(seed, "signed");
        lent.text
    };
    (1..=TEXTS).map(text).collect()
}

/// How many jobs one thread does until the time is over.
fn work(texts: &[Vec<u8>], end: Instant) -> u64 {
    let mut listing = vec![0; packmap::JOB_BYTES];
    let mut count = 0;
    for text in texts.iter().cycle() {
        packmap::job(text, &mut listing).expect("these jobs are not refused");
        count += 1;
        if Instant::now() >= end {
            break;
        }
    }
    count
}

/// Jobs per second of all threads together.
fn rate(texts: &[Vec<u8>], threads: usize, seconds: u64) -> f64 {
    let start = Instant::now();
    let end = start + Duration::from_secs(seconds);
    let jobs: u64 = thread::scope(|scope| {
        let all: Vec<_> = (0..threads)
            .map(|_| scope.spawn(move || work(texts, end)))
            .collect();
        let counts = all.into_iter().map(|one| one.join().expect("no panic"));
        counts.sum()
    });
    jobs as f64 / start.elapsed().as_secs_f64()
}

/// A line for each n: n and jobs per second.
pub fn run(threads: usize, seconds: u64) {
    for n in SIZES {
        println!("{n}\t{:.1}", rate(&texts(n), threads, seconds));
    }
}
