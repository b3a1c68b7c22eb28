//! Times of the proved calls and of the second program's, on the same spheres,
//! and these spheres for other programs.
//!
//!     bench time N SEED                  a line for each row that n has: its name, microseconds
//!                                        of the proved call, of the second program's, of the
//!                                        proved call with the outer triangle at a random place of
//!                                        the list, and of the earlier archive's, raises, and
//!                                        microseconds of the proved forward call on a range's lows
//!     bench mesh N SEED SHAPE            n, then a triple of vertices a line, the outer one first
//!     bench draw N SEED SHAPE PROGRAM    microseconds of forward with all weights 1, then b0 and
//!                                        b1 of each vertex a line
//!     bench one ROW N SEED PROGRAM       one run of a row's call, in the function `measured`, for
//!                                        counting instructions
//!     bench jobs THREADS SECONDS         n and proved jobs per second on so many threads, a line
//!                                        for each n of `jobs::SIZES`, each measured for SECONDS
//!     bench worst N                      a line for each proved call that n has: its name, the longest
//!                                        time over spheres and weights of all kinds, and on which
//!
//! SHAPE is random or nest, PROGRAM proved or second (of `one` also placed: the
//! proved call with the outer triangle at a random place), ROW the first word of a
//! row below, THREADS and SECONDS 1 to 1000. Fields of a line of times or of jobs
//! are parted by tabs, and '-' stands where a call makes no raises, has no outer
//! triangle or is not on ranges, or no earlier archive has it. A time is the least of several runs, the calls taking turns; all must
//! answer and write the same, and none may refuse. Only an earlier archive may leave
//! something else where the total is below 1: before C-21 repair made no first raise
//! there, and '-' stands for its time.
//!
//! The outer triangle is the first one of the list. Where it is at a random place,
//! it is the same triangle, and the others are in the same order.

#[cfg(feature = "beside")]
mod calls_earlier;
mod calls_proved;
mod calls_second;
mod jobs;
mod worst;

#[cfg(feature = "beside")]
use calls_earlier::call as earlier_call;
use second::spheres::{moved, scramble, weights, Rng, Surface};
use second::text::{Job, MOST_BYTES};
use second::{Sizes, Work, LIMIT, TEXT_VERTICES, VERTICES};
use std::process::ExitCode;
use std::time::{Duration, Instant};

/// Least and most runs of a call, and how long is enough for more than the least.
const RUNS: std::ops::Range<usize> = 7..50;
const ENOUGH: Duration = Duration::from_millis(400);

/// A row of the table.
struct Row {
    word: &'static str,
    name: &'static str,
    call: &'static str,
    shape: &'static str,
    weights: &'static str,
}

const fn row(word: &'static str, name: &'static str, set: [&'static str; 3]) -> Row {
    let [call, shape, weights] = set;
    Row {
        word,
        name,
        call,
        shape,
        weights,
    }
}

/// On a nest with all weights zero every triangle is raised, 2n - 5 of them. All
/// weights zero are a total below 1 too.
const ROWS: [Row; 16] = [
    row("check", "check", ["check", "random", "unit"]),
    row("check-nest", "check, nest", ["check", "nest", "unit"]),
    row("labels", "labels", ["labels", "random", "unit"]),
    row("labels-nest", "labels, nest", ["labels", "nest", "unit"]),
    row("forward", "forward", ["forward", "random", "positive"]),
    row(
        "forward-nest",
        "forward, nest",
        ["forward", "nest", "positive"],
    ),
    row("range", "forward range", ["range", "random", "positive"]),
    row(
        "range-nest",
        "forward range, nest",
        ["range", "nest", "positive"],
    ),
    row("backward", "backward", ["backward", "random", "positive"]),
    row(
        "backward-nest",
        "backward, nest",
        ["backward", "nest", "positive"],
    ),
    row(
        "repair",
        "repair, random weights",
        ["repair", "random", "upward"],
    ),
    row(
        "downward",
        "repair, random weights, total below 1",
        ["repair", "random", "downward"],
    ),
    row(
        "zero",
        "repair, all zero, random sphere",
        ["repair", "random", "zero"],
    ),
    row(
        "nest",
        "repair, all zero, nest: 2n - 5 raises",
        ["repair", "nest", "zero"],
    ),
    row("snapping", "snapping", ["snapping", "random", "unit"]),
    row("job", "whole job", ["job", "random", "upward"]),
];

impl Row {
    /// Whether the proved call takes an outer number.
    fn by_number(&self) -> bool {
        !["snapping", "job"].contains(&self.call)
    }

    /// Whether there is such a call for n; a job text has its own limit.
    fn has(&self, n: usize) -> bool {
        self.call != "job" || TEXT_VERTICES.contains(&n)
    }

    fn start(&self, n: usize, seed: u64) -> Lent {
        let mut start = Lent::new(n, seed, self.shape);
        start.weigh(seed, self.weights);
        start
    }
}

/// Past every count of raises and every length of a listing.
const REFUSED: u64 = 1 << 32;

/// What a call answers for a refusal.
fn refused(number: u8) -> u64 {
    REFUSED | u64::from(number)
}

/// What a call reads and writes. Its answer is 0, the count of raises, the
/// length of a listing, or what stands for a refusal.
#[derive(Clone, PartialEq)]
pub struct Lent {
    pub n: usize,
    pub outer: usize,
    pub triangles: Vec<u16>,
    /// The lows of a range.
    pub weights: Vec<i64>,
    pub highs: Vec<i64>,
    /// The low ones of a range.
    pub coordinates: Vec<i64>,
    pub high_coordinates: Vec<i64>,
    pub labels: Vec<u8>,
    pub scratch: Vec<i64>,
    pub shares: Vec<f64>,
    pub text: Vec<u8>,
    pub listing: Vec<u8>,
}

pub type Call = fn(&mut Work, &mut Lent) -> u64;

/// There is no earlier archive.
#[cfg(not(feature = "beside"))]
fn earlier_call(_: &str) -> Option<Call> {
    None
}

/// Vertices put into random triangles, then n sides tried for turning; or a nest,
/// each vertex in the triangle that came last, listed from the inside out.
fn sphere(rng: &mut Rng, n: usize, shape: &str) -> Vec<u16> {
    let mut surface = Surface::new(3, &[0, 2, 1, 0, 1, 2]);
    if shape == "random" {
        surface.grow(rng, n, 0, 0);
        surface.mix(rng, n);
        return scramble(rng, n, &surface.corner);
    }
    surface.grow(rng, n, 2, 0);
    let mut names: Vec<u16> = (0..n as u16).collect();
    rng.shuffle(&mut names);
    let (outer, inner) = surface.corner.split_at(3);
    let listed = outer.iter().chain(inner.chunks_exact(3).rev().flatten());
    listed.map(|&v| names[v as usize]).collect()
}

impl Lent {
    fn new(n: usize, seed: u64, shape: &str) -> Lent {
        let sizes = Sizes::of(n).expect("n is within its limits");
        let mut rng = Rng(seed);
        Lent {
            n,
            outer: 0,
            triangles: sphere(&mut rng, n, shape),
            weights: vec![1; sizes.weights],
            highs: vec![1; sizes.weights],
            coordinates: vec![0; sizes.coordinates],
            high_coordinates: vec![0; sizes.coordinates],
            labels: vec![0; sizes.labels],
            scratch: vec![0; sizes.scratch],
            shares: (0..sizes.points)
                .map(|_| rng.next() as f64 / 2f64.powi(64))
                .collect(),
            text: vec![],
            listing: vec![0; MOST_BYTES],
        }
    }

    /// Weights of a kind, highs that 9 lets through, the coordinates of the weights,
    /// and a text where n allows one. Upward and downward are from -9 to 9, with a
    /// total of 1 or more, or below 1.
    fn weigh(&mut self, seed: u64, kind: &str) {
        let len = self.weights.len();
        let list = |kind| weights(&mut Rng(seed), kind, len).expect("a kind of weights");
        self.weights = match kind {
            "upward" | "downward" => facing(list("signed"), kind == "upward"),
            _ => list(kind),
        };
        let sum: i64 = self.weights.iter().map(|w| w.abs()).sum();
        let spare = (LIMIT - sum) / len as i64;
        let above = |w: &i64| w.abs() + spare.min(9);
        self.highs = self.weights.iter().map(above).collect();
        if TEXT_VERTICES.contains(&self.n) {
            self.text = Job::write(self.n, &self.triangles, &self.weights);
        }
        calls_second::call("forward")(&mut Work::default(), self);
    }

    /// The same with the outer triangle, which is the first, moved to a random
    /// place.
    fn placed(&self, seed: u64) -> Lent {
        let outer = 1 + Rng(seed).below(2 * self.n - 5);
        Lent {
            outer,
            triangles: moved(&self.triangles, 0, outer),
            ..self.clone()
        }
    }

    /// What a call may have written.
    fn written(&self) -> ([&[i64]; 4], [&[u8]; 2]) {
        let b = [&self.coordinates[..], &self.high_coordinates];
        (
            [&self.weights, b[0], b[1], &self.scratch],
            [&self.labels, &self.listing],
        )
    }
}

extern "C" {
    fn clock_gettime(clock: i32, time: *mut [i64; 2]) -> i32;
}

/// How long this program has been on a processor.
fn on_processor() -> Duration {
    const PROCESS_CPUTIME: i32 = 2;
    let mut time = [0; 2];
    unsafe { clock_gettime(PROCESS_CPUTIME, &mut time) };
    Duration::new(time[0] as u64, time[1] as u32)
}

/// The time of a call, less what other programs took of it.
fn clock(call: impl FnOnce()) -> Duration {
    let before = on_processor();
    let now = Instant::now();
    call();
    now.elapsed().min(on_processor() - before)
}

/// Answers and least times of calls that take turns, each on its own input, and
/// what they leave.
fn race(calls: &[(Call, &Lent)]) -> Vec<(u64, Duration, Lent)> {
    let mut work = Work::default();
    let ends = calls
        .iter()
        .map(|(_, start)| (0, Duration::MAX, (*start).clone()));
    let mut ends: Vec<_> = ends.collect();
    let begin = Instant::now();
    for run in 1..=RUNS.end {
        for ((call, start), (answer, least, lent)) in calls.iter().zip(&mut ends) {
            lent.weights.copy_from_slice(&start.weights);
            lent.coordinates.copy_from_slice(&start.coordinates);
            let time = clock(|| *answer = call(&mut work, lent));
            *least = time.min(*least);
        }
        if run >= RUNS.start && begin.elapsed() > ENOUGH {
            break;
        }
    }
    ends
}

fn micros(time: Duration) -> String {
    format!("{:.2}", time.as_secs_f64() * 1e6)
}

fn mesh(n: usize, seed: u64, shape: &str) {
    println!("{n}");
    for t in Lent::new(n, seed, shape).triangles.chunks_exact(3) {
        println!("{} {} {}", t[0], t[1], t[2]);
    }
}

/// The weights, or all of them with the other sign, so that their total is 1 or
/// more, or below 1.
fn facing(mut weights: Vec<i64>, up: bool) -> Vec<i64> {
    let total: i64 = weights.iter().sum();
    if (total > 0) != up {
        weights.iter_mut().for_each(|w| *w = -*w);
    }
    if up && total == 0 {
        weights[0] += 1;
    }
    weights
}

fn time(n: usize, seed: u64) -> Result<(), String> {
    for row in ROWS.iter().filter(|row| row.has(n)) {
        let (second, proved) = (calls_second::call(row.call), calls_proved::call(row.call));
        let start = row.start(n, seed);
        let placed = if row.by_number() {
            start.placed(seed)
        } else {
            start.clone()
        };
        // Each proved call comes after one of the second program's.
        let mut calls = vec![(second, &start), (proved, &start)];
        calls.extend([(second, &placed), (proved, &placed)]);
        let mut add = |call: Call| {
            calls.extend([(second, &start), (call, &start)]);
            calls.len() - 1
        };
        let earlier = earlier_call(row.call).map(&mut add);
        let forward = (row.call == "range").then(|| add(calls_proved::call("forward")));
        let ends = race(&calls);
        let (answer, _, left) = &ends[0];
        let same =
            |end: &(u64, Duration, Lent)| end.0 == *answer && end.2.written() == left.written();
        // Before C-21 there was no first raise.
        let low = start.weights.iter().sum::<i64>() < 1;
        let held = |k: usize| Some(k) != forward && !(low && Some(k) == earlier);
        let all_same = (0..ends.len()).all(|k| !held(k) || same(&ends[k]));
        if !all_same || *answer >= REFUSED {
            let what = if all_same { "is refused" } else { "differs" };
            return Err(format!("{} {what} at n = {n}, seed {seed}", row.name));
        }
        let raises = match row.call {
            "repair" => answer.to_string(),
            _ => "-".into(),
        };
        let time = |k: Option<usize>| k.map_or("-".into(), |k| micros(ends[k].1));
        let (second, proved, forward) = (time(Some(0)), time(Some(1)), time(forward));
        let placed = time(row.by_number().then_some(3));
        let earlier = time(earlier.filter(|&k| same(&ends[k])));
        let name = row.name;
        println!("{name}\t{proved}\t{second}\t{placed}\t{earlier}\t{raises}\t{forward}");
    }
    Ok(())
}

fn find(call: &str, program: &str) -> Call {
    match program {
        "second" => calls_second::call(call),
        _ => calls_proved::call(call),
    }
}

fn draw(n: usize, seed: u64, shape: &str, program: &str) {
    let mut start = Lent::new(n, seed, shape);
    start.weigh(seed, "unit");
    let ends = race(&[(find("forward", program), &start)]);
    let (_, least, left) = &ends[0];
    println!("{}", micros(*least));
    for b in left.coordinates.chunks_exact(3) {
        println!("{} {}", b[0], b[1]);
    }
}

#[inline(never)]
fn measured(call: Call, work: &mut Work, lent: &mut Lent) -> u64 {
    call(work, lent)
}

fn one(row: &Row, n: usize, seed: u64, program: &str) {
    let call = find(row.call, program);
    let mut work = Work::default();
    let mut start = row.start(n, seed);
    if program == "placed" {
        start = start.placed(seed);
    }
    // The second program keeps its buffers from call to call.
    if program == "second" {
        call(&mut work, &mut start.clone());
    }
    println!("{}", measured(call, &mut work, &mut start.clone()));
}

/// None where the words make no command.
fn run(words: &[&str]) -> Option<Result<(), String>> {
    let number = |k: usize| words.get(k)?.parse::<usize>().ok();
    let size = |k: usize| number(k).filter(|n| VERTICES.contains(n));
    let seed = |k: usize| number(k).map(|seed| seed as u64);
    let positive = |k: usize| number(k).filter(|x| (1..=1000).contains(x));
    match words {
        ["time", _, _] => return Some(time(size(1)?, seed(2)?)),
        ["mesh", _, _, shape @ ("random" | "nest")] => mesh(size(1)?, seed(2)?, shape),
        ["draw", _, _, shape @ ("random" | "nest"), program @ ("proved" | "second")] => {
            draw(size(1)?, seed(2)?, shape, program)
        }
        ["one", word, _, _, program @ ("proved" | "second" | "placed")] => {
            let (n, seed) = (size(2)?, seed(3)?);
            let mut rows = ROWS.iter().filter(|row| row.has(n));
            let row = rows.find(|row| row.word == *word)?;
            if *program == "placed" && !row.by_number() {
                return None;
            }
            one(row, n, seed, program)
        }
        ["jobs", _, _] => jobs::run(positive(1)?, positive(2)? as u64),
        ["worst", _] => worst::run(size(1)?),
        _ => return None,
    }
    Some(Ok(()))
}

fn main() -> ExitCode {
    let words: Vec<String> = std::env::args().skip(1).collect();
    let words: Vec<&str> = words.iter().map(String::as_str).collect();
    match run(&words) {
        Some(Ok(())) => ExitCode::SUCCESS,
        Some(Err(error)) => {
            eprintln!("bench: {error}");
            ExitCode::FAILURE
        }
        None => {
            eprintln!("bench time N SEED\nbench mesh N SEED SHAPE");
            eprintln!("bench draw N SEED SHAPE PROGRAM\nbench one ROW N SEED PROGRAM");
            eprintln!("bench jobs THREADS SECONDS\nbench worst N");
            ExitCode::from(2)
        }
    }
}
