//! The proved calls against the second program, on random and damaged input:
//! answers and the final contents of every lent slice.
//!
//!     compare [COUNT] [SEED]
//!
//! Its last line is 'N passed, M failed'; a group of calls that all agree counts as one.

mod jobs;
mod labelling;
mod mapping;
mod meshes;
mod outer;
mod papers;
mod ranging;
mod repairing;
mod snapping;
mod tally;

fn main() {
    let mut words = std::env::args().skip(1).map(|w| w.parse().unwrap_or(0));
    let count = words.next().unwrap_or(4_000) as usize;
    let seed = words.next().unwrap_or(1);
    let [forward, backward] = mapping::run(count, seed);
    let groups = [
        papers::run(),
        meshes::run(count, seed),
        outer::run(count / 4, seed),
        labelling::run(count, seed),
        forward,
        ranging::run(count, seed),
        backward,
        repairing::run(count, seed),
        snapping::run(250 * count, seed),
        jobs::run(count, seed),
    ];
    let passed = groups.iter().filter(|group| group.passed()).count();
    let failed = groups.len() - passed;
    println!("{passed} passed, {failed} failed");
    std::process::exit(i32::from(failed > 0));
}
