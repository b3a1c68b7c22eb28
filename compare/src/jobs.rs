//! The call on a text: random jobs of every size, texts damaged so that a known
//! row refuses them, and texts with a few bytes changed, into listing buffers of
//! the right length, shorter and longer ones; and the repairs worked out by hand
//! as jobs.

use crate::meshes::stale_bytes;
use crate::tally::{told, Tally};
use second::shells::{repairs, EXAMPLE, LISTING};
use second::spheres::{self, Rng};
use second::text::{self, Job, MOST_BYTES};
use second::{damage, Answer, Extra, Refusal, Work};

/// Both programs with a listing buffer of `room` bytes; the listing's length, where there is one.
fn one(tally: &mut Tally, work: &mut Work, text: &[u8], room: usize) -> Option<usize> {
    let (mut ours, mut theirs) = (stale_bytes(room), stale_bytes(room));
    let answer = told(packmap::job(text, &mut ours));
    let wanted = text::run(work, text, &mut theirs);
    tally.count(answer, answer == wanted && ours == theirs, || {
        let shown = String::from_utf8_lossy(text);
        format!("room {room}, {shown:?}: {answer:?} and {wanted:?}")
    });
    answer.ok()
}

/// A listing buffer of any length, and where there is a listing, of about its length.
fn rooms(tally: &mut Tally, work: &mut Work, rng: &mut Rng, text: &[u8]) {
    let any = [0, rng.below(100), MOST_BYTES + rng.below(70_000)][rng.below(3)];
    one(tally, work, text, any);
    if let Some(length) = one(tally, work, text, MOST_BYTES) {
        for room in [length, length - 1, length + 1, rng.below(length)] {
            one(tally, work, text, room);
        }
    }
}

/// A job text with weights of any kind.
fn random(rng: &mut Rng) -> Vec<u8> {
    let sizes = [4, 30, 254][rng.below(3)];
    let n = 3 + rng.below(sizes);
    let triangles = spheres::sphere(rng, n);
    let weights = match rng.below(16) {
        0 => damage::stuck(rng, 2 * n - 5),
        1 | 2 => spheres::weights(rng, "balanced", 2 * n - 5).expect("a kind"),
        _ => spheres::any_weights(rng, 2 * n - 5),
    };
    Job::write(n, &triangles, &weights)
}

/// Changes, takes out, puts in or repeats a few bytes.
fn change(rng: &mut Rng, text: &mut Vec<u8>) {
    const BYTES: &[u8] = b"\n\t-0123456789twv \0\xff";
    for _ in 0..1 + rng.below(3) {
        let (at, byte) = (rng.below(text.len()), BYTES[rng.below(BYTES.len())]);
        match rng.below(4) {
            0 => text[at] = byte,
            1 => text.insert(at, byte),
            2 if text.len() > 1 => drop(text.remove(at)),
            _ => text.insert(at, text[at]),
        }
    }
}

/// A call whose answer is known without a program.
fn known(tally: &mut Tally, text: &[u8], wanted: Answer<&[u8]>) {
    let mut listing = stale_bytes(MOST_BYTES);
    let answer = told(packmap::job(text, &mut listing));
    let written = answer.map(|length| &listing[..length]);
    tally.count(answer, written == wanted, || {
        format!("{answer:?}, and the answer is {wanted:?}")
    });
}

/// The repairs worked out by hand, as jobs.
fn by_hand(tally: &mut Tally) {
    for repair in repairs() {
        let text = Job::write(repair.n, repair.triangles, &repair.weights);
        let listing = repair.listing();
        let wanted = listing.as_ref().map(|text| text.as_bytes());
        known(tally, &text, wanted.map_err(|&refusal| refusal));
    }
}

/// A text that is refused with `number`.
fn damaged(tally: &mut Tally, work: &mut Work, rng: &mut Rng, number: u8) {
    let bad = damage::text(rng, number);
    let extra = match bad.line {
        0 => Extra::Nothing,
        line => Extra::Line(line as usize),
    };
    known(tally, &bad.text, Err(Refusal { number, extra }));
    rooms(tally, work, rng, &bad.text);
}

pub fn run(count: usize, seed: u64) -> Tally {
    let mut rng = Rng(seed);
    let mut work = Work::default();
    let mut tally = Tally::new("job", &[0, 1, 3, 4, 5, 6, 7, 25, 8, 9, 13, 17, 18, 19]);
    known(&mut tally, EXAMPLE.as_bytes(), Ok(LISTING.as_bytes()));
    by_hand(&mut tally);
    for round in 0..count {
        let mut text = random(&mut rng);
        rooms(&mut tally, &mut work, &mut rng, &text);
        change(&mut rng, &mut text);
        rooms(&mut tally, &mut work, &mut rng, &text);
        let number = damage::TEXT_NUMBERS[round % damage::TEXT_NUMBERS.len()];
        damaged(&mut tally, &mut work, &mut rng, number);
    }
    tally
}
