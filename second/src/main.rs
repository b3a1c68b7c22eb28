//! The program `second`: own tests, jobs, random and damaged jobs, drawings
//! snapped again, and comparison with another program.

use second::spheres::{sphere, weights, Rng, KINDS};
use second::text::{self, Job};
use second::{damage, snap, trials, Work};
use std::io::{Read, Write};
use std::process::{Command, ExitCode, Stdio};

const USAGE: &str = "second test [ROUNDS] [SEED]
second job
second repaired
second drawing SCALE
second sphere N SEED [KIND]
second damaged NUMBER SEED
second compare COMMAND COUNT SEED";

fn main() -> ExitCode {
    let arguments: Vec<String> = std::env::args().skip(1).collect();
    let words: Vec<&str> = arguments.iter().map(String::as_str).collect();
    let done = match words[..] {
        ["test", ref rest @ ..] => test(rest),
        ["job"] => job(),
        ["repaired"] => repaired(),
        ["drawing", scale] => drawing(scale),
        ["sphere", n, seed, ref kind @ ..] => random_job(n, seed, kind.first()),
        ["damaged", number, seed] => damaged_job(number, seed),
        ["compare", command, count, seed] => compare(command, count, seed),
        _ => None,
    };
    match done {
        Some(true) => ExitCode::SUCCESS,
        Some(false) => ExitCode::FAILURE,
        None => {
            eprintln!("{USAGE}");
            ExitCode::from(2)
        }
    }
}

/// The i-th word as a number, or what stands for it when it is not given.
fn number(words: &[&str], i: usize, usual: u64) -> Option<u64> {
    words.get(i).map_or(Some(usual), |word| word.parse().ok())
}

fn put(bytes: &[u8]) -> Option<bool> {
    Some(std::io::stdout().write_all(bytes).is_ok())
}

fn test(words: &[&str]) -> Option<bool> {
    let rounds = number(words, 0, 400)?.max(1) as usize;
    Some(trials::run(rounds, number(words, 1, 1)?))
}

/// Standard input up to one byte past the longest job text: more changes nothing.
fn input() -> std::io::Result<Vec<u8>> {
    let mut text = vec![];
    let mut input = std::io::stdin().take(text::MOST_BYTES as u64 + 1);
    input.read_to_end(&mut text)?;
    Ok(text)
}

fn job() -> Option<bool> {
    let Ok(text) = input() else {
        return Some(false);
    };
    put(&text::packmap(&mut Work::default(), &text))
}

/// The job text with the weights that repair leaves.
fn repaired() -> Option<bool> {
    let Ok(text) = input() else {
        return Some(false);
    };
    let (mut work, mut listing) = (Work::default(), [0; text::MOST_BYTES]);
    if text::run(&mut work, &text, &mut listing).is_err() {
        return Some(false);
    }
    let job = &work.job;
    put(&Job::write(job.n, &job.triangles, &job.weights))
}

/// The two shares at the front of a line of a stored drawing, by the
/// hexadecimal digits of their bits.
fn shares(line: &str) -> Option<[f64; 2]> {
    let mut fields = line.split('\t');
    let mut share = || u64::from_str_radix(fields.next()?, 16).ok();
    Some([share()?, share()?].map(f64::from_bits))
}

/// A stored drawing with the coordinates that its shares are snapped to.
fn drawing(scale: &str) -> Option<bool> {
    let scale = scale.parse().ok()?;
    let Ok(stored) = std::io::read_to_string(std::io::stdin()) else {
        return Some(false);
    };
    let Some(points) = stored.lines().map(shares).collect::<Option<Vec<_>>>() else {
        return Some(false);
    };
    let n = points.len();
    let mut b = vec![0; 3 * n];
    if snap::snap(n, scale, points.as_flattened(), &mut b).is_err() {
        return Some(false);
    }
    let line = |([x, y], b): (&[f64; 2], &[i64])| {
        let (x, y) = (x.to_bits(), y.to_bits());
        format!("{x:016x}\t{y:016x}\t{}\t{}\t{}\n", b[0], b[1], b[2])
    };
    let snapped: String = points.iter().zip(b.chunks_exact(3)).map(line).collect();
    put(snapped.as_bytes())
}

fn random_job(n: &str, seed: &str, kind: Option<&&str>) -> Option<bool> {
    let n = n
        .parse()
        .ok()
        .filter(|n| second::TEXT_VERTICES.contains(n))?;
    let mut rng = Rng(seed.parse().ok()?);
    let kind = match kind {
        Some(kind) => kind,
        None => KINDS[rng.below(KINDS.len())],
    };
    let triangles = sphere(&mut rng, n);
    let weights = weights(&mut rng, kind, 2 * n - 5)?;
    put(&Job::write(n, &triangles, &weights))
}

fn damaged_job(number: &str, seed: &str) -> Option<bool> {
    let number = number.parse().ok();
    let number = number.filter(|n| damage::TEXT_NUMBERS.contains(n))?;
    put(&damage::text(&mut Rng(seed.parse().ok()?), number).text)
}

/// What a command, parted by spaces, prints for a text on its standard input.
fn printed(command: &str, text: &[u8]) -> std::io::Result<Vec<u8>> {
    let mut words = command.split_whitespace();
    let mut child = Command::new(words.next().unwrap_or_default())
        .args(words)
        .stdin(Stdio::piped())
        .stdout(Stdio::piped())
        .spawn()?;
    // A text that is too long need not be read to its end.
    if let Some(mut input) = child.stdin.take() {
        let _ = input.write_all(text);
    }
    Ok(child.wait_with_output()?.stdout)
}

/// Random and damaged jobs, in turn, to another program and to this one.
fn compare(command: &str, count: &str, seed: &str) -> Option<bool> {
    let (count, mut rng) = (count.parse::<usize>().ok()?, Rng(seed.parse().ok()?));
    let mut work = Work::default();
    let mut differing = 0;
    for i in 0..count {
        let text = if i % 3 == 2 {
            let which = rng.below(damage::TEXT_NUMBERS.len());
            damage::text(&mut rng, damage::TEXT_NUMBERS[which]).text
        } else {
            let sizes = [8, 30, 254][rng.below(3)];
            let n = 3 + rng.below(sizes);
            let kind = KINDS[rng.below(KINDS.len())];
            let triangles = sphere(&mut rng, n);
            Job::write(n, &triangles, &weights(&mut rng, kind, 2 * n - 5)?)
        };
        let ours = text::packmap(&mut work, &text);
        match printed(command, &text) {
            Ok(theirs) if theirs == ours => (),
            Ok(theirs) => {
                differing += 1;
                println!(
                    "job {i} differs\n{}ours:\n{}theirs:\n{}",
                    String::from_utf8_lossy(&text),
                    String::from_utf8_lossy(&ours),
                    String::from_utf8_lossy(&theirs)
                );
            }
            Err(error) => {
                eprintln!("{command}: {error}");
                return Some(false);
            }
        }
    }
    println!("{} passed, {differing} failed", count - differing);
    Some(differing == 0)
}
