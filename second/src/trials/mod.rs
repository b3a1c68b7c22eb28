//! The program's own tests, one file for each call: document 01's checked
//! shells and refusal table, random and damaged input of every kind, and the
//! fast calls against the slow references. Every call goes through a method
//! that also checks what the buffers hold after. Here are the list of groups,
//! the counts and what the files share.

mod labels;
mod maps;
mod mesh;
mod outer;
mod range;
mod repair;
mod snap;
mod text;

use crate::spheres::Rng;
use crate::{Answer, Refusal, Sizes, Work, NUMBERS};

/// What lent buffers hold before a call.
const FILL: i64 = 0x5a5a_1234_5a5a;
const FILL_BYTE: u8 = 0xa5;

/// Numbers of vertices that row 1 refuses.
const WRONG_N: [usize; 6] = [0, 1, 2, 4097, 65_536, usize::MAX];

type Test = fn(&mut Trials);

/// The groups by name, each with its tests. All draw on one sequence of random
/// numbers, so their order matters for what a seed gives.
const GROUPS: [(&str, &[Test]); 14] = [
    (
        "P1 to P11",
        &[
            labels::checked,
            maps::checked,
            range::checked,
            repair::checked,
            snap::checked,
            outer::checked,
            outer::last_of_tetra,
        ],
    ),
    (
        "refusal table",
        &[
            mesh::table,
            outer::table,
            labels::table,
            maps::table,
            range::table,
            repair::table,
            snap::table,
            text::table,
        ],
    ),
    (
        "slice lengths",
        &[
            mesh::lengths,
            labels::lengths,
            maps::lengths,
            range::lengths,
            repair::lengths,
            snap::lengths,
        ],
    ),
    (
        "mesh check",
        &[mesh::on_three_vertices, mesh::changed, mesh::damaged],
    ),
    ("outer triangle", &[outer::every_place, outer::damaged]),
    ("labels", &[labels::random]),
    ("forward and backward", &[maps::random]),
    ("refused weights and coordinates", &[maps::refused_numbers]),
    ("ranges", &[range::random, range::refused_ranges]),
    ("repair", &[repair::random, repair::first_raises]),
    (
        "snapping",
        &[
            snap::near_powers,
            snap::halves,
            snap::random,
            snap::refused_shares,
            snap::lists,
        ],
    ),
    ("job texts", &[text::example, text::by_hand, text::random]),
    (
        "damaged texts",
        &[
            text::broken_example,
            text::cut_example,
            text::damaged,
            text::changed,
        ],
    ),
    ("every refusal met", &[all_met]),
];

struct Trials {
    work: Work,
    rng: Rng,
    rounds: usize,
    passed: u64,
    failed: u64,
    /// How often each refusal was met.
    hits: [u64; 30],
}

/// Runs every group; true where nothing failed. `rounds` scales the random
/// parts.
pub fn run(rounds: usize, seed: u64) -> bool {
    let mut trials = Trials {
        work: Work::default(),
        rng: Rng(seed),
        rounds,
        passed: 0,
        failed: 0,
        hits: [0; 30],
    };
    for (name, tests) in GROUPS {
        let (passed, failed) = (trials.passed, trials.failed);
        let start = std::time::Instant::now();
        for test in tests {
            test(&mut trials);
        }
        println!(
            "{name}: {} passed, {} failed, {:.1} s",
            trials.passed - passed,
            trials.failed - failed,
            start.elapsed().as_secs_f64()
        );
    }
    println!("{} passed, {} failed", trials.passed, trials.failed);
    trials.failed == 0
}

#[test]
fn every_group_passes() {
    assert!(run(10, 2));
}

fn all_met(trials: &mut Trials) {
    // Kept in a list: with an array, the compiler unrolls this for minutes.
    let mut met = vec![];
    for &number in &NUMBERS {
        let hits = trials.hits[usize::from(number)];
        trials.check(hits > 0, || format!("refusal {number} was never met"));
        met.push(format!("{number}: {hits}"));
    }
    println!("  refusals met: {}", met.join(", "));
}

impl Trials {
    fn check(&mut self, ok: bool, what: impl FnOnce() -> String) {
        if ok {
            self.passed += 1;
        } else {
            self.failed += 1;
            if self.failed <= 20 {
                println!("  failed: {}", what());
            }
        }
    }

    fn equal<T: PartialEq + std::fmt::Debug>(&mut self, got: T, wanted: T, what: &str) {
        let ok = got == wanted;
        self.check(ok, || {
            let mut text = format!("{what}: got {got:?}, wanted {wanted:?}");
            text.truncate(2000);
            text
        });
    }

    /// Counts a refusal and checks the scratch that its call left.
    fn settle<T>(&mut self, answer: &Answer<T>, scratch: &[i64]) {
        let number = answer.as_ref().err().map_or(0, |r| r.number);
        self.hits[number as usize] += 1;
        let left = if number == 1 || number == 2 { FILL } else { 0 };
        let ok = scratch.iter().all(|&x| x == left);
        self.check(ok, || format!("scratch after {number}"));
    }

    fn untouched(&mut self, ok: bool, call: &str) {
        self.check(ok, || format!("{call}: buffers after a refusal"));
    }

    /// A number of vertices: mostly small, at times up to `most`.
    fn size(&mut self, most: usize) -> usize {
        let top = [12, 12, 12, 40, 40, 300, 4096][self.rng.below(7)];
        3 + self.rng.below(top.min(most) - 2)
    }

    /// A number of vertices for a round: the largest, the smallest, then any.
    fn size_in(&mut self, round: usize, most: usize) -> usize {
        match round {
            0 => most,
            1 => 3,
            _ => self.size(most),
        }
    }
}

fn refused<T>(number: u8) -> Answer<T> {
    Err(Refusal::plain(number))
}

/// Lengths for buffers that go with any n.
fn sizes(n: usize) -> Sizes {
    Sizes::of(n).unwrap_or(Sizes {
        triangles: 0,
        labels: 3,
        weights: 1,
        coordinates: 6,
        scratch: 20,
        points: 4,
    })
}

/// A call's slices, one of them of a wrong length.
struct WrongLength {
    n: usize,
    /// Which slice, and by how much its length is off.
    slice: usize,
    change: isize,
}

impl WrongLength {
    /// For some n and each of so many slices: one item short, one too many, n
    /// short, 14n too many (scratch as before C-20).
    fn all(slices: usize) -> Vec<WrongLength> {
        let mut all = vec![];
        for n in [3, 4, 9] {
            for slice in 0..slices {
                for change in [-1, 1, -n, 14 * n] {
                    all.push(WrongLength {
                        n: n as usize,
                        slice,
                        change,
                    });
                }
            }
        }
        all
    }

    /// The length to lend slice i with.
    fn of(&self, i: usize, exact: usize) -> usize {
        let more = if i == self.slice { self.change } else { 0 };
        exact.saturating_add_signed(more)
    }
}
