//! Tests of the job text, the host's call and what packmap prints: document
//! 01's example, rows 17 to 19, repairs worked out by hand, random jobs and
//! damaged texts. What is wanted comes from document 01, from the call of repair,
//! from the slow reader, or from the number and line that a text was damaged for.

use super::{Trials, FILL_BYTE};
use crate::shells::{repairs, EXAMPLE, LISTING};
use crate::spheres::{any_weights, sphere};
use crate::text::{Job, Reader};
use crate::{damage, naive, text};

impl Trials {
    /// The host's number, and the listing buffer of `room` bytes after.
    fn host(&mut self, text: &[u8], room: usize) -> (u64, Vec<u8>) {
        let mut out = vec![FILL_BYTE; room];
        let number = text::host(&mut self.work, text, &mut out);
        let written = if number < 65_536 { number as usize } else { 0 };
        if number >= 65_536 {
            self.hits[(number % 65_536) as usize] += 1;
        }
        let ok = out[written..].iter().all(|&x| x == FILL_BYTE);
        self.untouched(ok, "host");
        (number, out)
    }

    /// What packmap prints for a text.
    fn printed(&mut self, text: &[u8], wanted: &str, what: &str) {
        let printed = text::packmap(&mut self.work, text);
        self.equal(String::from_utf8_lossy(&printed), wanted.into(), what);
    }

    /// The host and packmap both refuse a text with this number and line.
    fn text_refused(&mut self, text: &[u8], number: u64, line: u64) {
        let (got, _) = self.host(text, text::MOST_BYTES);
        self.check(got == 65_536 * (1 + line) + number, || {
            let (number_got, line_got) = (got % 65_536, got / 65_536);
            let shown = String::from_utf8_lossy(&text[..text.len().min(300)]);
            format!(
                "text: got {number_got}, line + 1 = {line_got}; \
                 wanted {number}, line {line}: {shown}"
            )
        });
        let wanted = format!("refused\t{number}\t{line}\n");
        self.printed(text, &wanted, "what packmap prints");
    }
}

/// Rows 17 to 19.
pub(super) fn table(trials: &mut Trials) {
    let second_line = EXAMPLE.replacen("t\t0\t2\t1", "t\t01\t2\t1", 1);
    trials.text_refused(second_line.as_bytes(), 17, 2);
    trials.text_refused(b"pack-map\t4\nt\t01", 17, 2);
    let (got, _) = trials.host(EXAMPLE.as_bytes(), 5);
    trials.equal(got, 65_536 + 18, "18");
    trials.text_refused(&[b'x'; 16_385], 19, 0);
    trials.text_refused(&[b'x'; 16_384], 17, 1);
}

/// The example and its listing, in listing buffers of many lengths, and the
/// reader on it.
pub(super) fn example(trials: &mut Trials) {
    let text = EXAMPLE.as_bytes();
    trials.printed(text, LISTING, "the example's listing");
    trials.equal(naive::packmap(text), LISTING.into(), "slow listing");
    let long = LISTING.len();
    for room in [long, long + 1, text::MOST_BYTES, 100_000] {
        let (got, out) = trials.host(text, room);
        trials.equal(got, long as u64, "listing's length");
        trials.equal(&out[..long], LISTING.as_bytes(), "listing");
    }
    for room in 0..long {
        let (got, _) = trials.host(text, room);
        trials.equal(got, 65_536 + 18, "18");
    }
    let mut reader = Reader::new(text);
    for (i, line) in EXAMPLE.lines().enumerate() {
        let rest: Vec<&str> = EXAMPLE.split_inclusive('\n').skip(i).collect();
        trials.equal(reader.rest(), rest.concat().as_bytes(), "the reader's rest");
        trials.equal(reader.line(), Ok(line.as_bytes()), "the reader's line");
    }
    trials.equal(reader.rest(), b"", "the reader at the end");
}

/// The repairs worked out by hand, as jobs.
pub(super) fn by_hand(trials: &mut Trials) {
    for repair in repairs() {
        let job = Job::write(repair.n, repair.triangles, &repair.weights);
        match repair.listing() {
            Ok(listing) => trials.printed(&job, &listing, "by hand"),
            Err(refusal) => trials.text_refused(&job, refusal.number.into(), 0),
        }
    }
}

/// Random jobs.
pub(super) fn random(trials: &mut Trials) {
    for round in 0..2 * trials.rounds {
        let n = trials.size_in(round, 256);
        let t = sphere(&mut trials.rng, n);
        let w = any_weights(&mut trials.rng, 2 * n - 5);
        let job = Job::write(n, &t, &w);
        let wanted = by_repair(trials, n, &t, &w);
        let read = naive::Verdict::Job(n, t, w);
        trials.equal(naive::read(&job), read, "reading back");
        if n <= 16 {
            trials.equal(naive::packmap(&job), wanted.clone(), "slow listing");
        }
        trials.printed(&job, &wanted, "listing");
        if wanted.starts_with("pack") {
            let (got, _) = trials.host(&job, wanted.len() - 1);
            trials.equal(got, 65_536 + 18, "18 by one byte");
            let (got, out) = trials.host(&job, wanted.len());
            let whole = (wanted.len() as u64, wanted.as_bytes());
            trials.equal((got, &out[..]), whole, "exact room");
        } else {
            let (got, _) = trials.host(&job, 0);
            trials.equal(got, 65_536 + 13, "13 before 18");
        }
    }
}

/// What packmap prints for a job that rows 1 to 9 let through, by the call of
/// repair.
fn by_repair(trials: &mut Trials, n: usize, t: &[u16], w: &[i64]) -> String {
    let (Ok(count), new, b) = trials.repair(n, 0, t, w) else {
        return "refused\t13\t0\n".into();
    };
    let total: i64 = new.iter().sum();
    let mut out = format!("pack-map\t{n}\t{total}\t{count}\n");
    for (v, b) in b.chunks(3).enumerate() {
        out += &format!("v\t{v}\t{}\t{}\t{}\n", b[0], b[1], b[2]);
    }
    out
}

/// The example with something wrong in it, by hand.
pub(super) fn broken_example(trials: &mut Trials) {
    let with = |from: &str, to: &str| EXAMPLE.replacen(from, to, 1);
    let heavy = with("w\t5\nw\t3\nw\t-1", "w\t1\nw\t-1073741821\nw\t1");
    let cases: [(String, u64, u64); 24] = [
        ("".into(), 17, 1),
        ("\n".into(), 17, 1),
        ("pack-map\t2".into(), 17, 1),
        ("pack-map\t2\n".into(), 1, 0),
        ("pack-map\t257\nrubbish".into(), 1, 0),
        ("pack-map\t65535\n".into(), 1, 0),
        ("pack-map\t65536\n".into(), 17, 1),
        ("pack-map\t04\n".into(), 17, 1),
        ("pack-map\t-4\n".into(), 17, 1),
        ("pack-map\t4\n".into(), 17, 2),
        ("pack-map 4\n".into(), 17, 1),
        (with("pack-map\t4\n", "pack-map\t4\r\n"), 17, 1),
        (with("t\t0\t3\t2", "t\t0\t3\t2\t"), 17, 3),
        (with("t\t3\t1\t2", "t\t65536\t1\t2"), 17, 4),
        (with("t\t3\t1\t2", "t\t65535\t1\t2"), 3, 0),
        (with("t\t3\t1\t2", "t\t3\t3\t2"), 4, 0),
        (with("t\t3\t1\t2", "t\t0\t3\t2"), 5, 0),
        (with("w\t-1", "w\t-0"), 17, 8),
        (with("w\t-1\n", "w\t-1"), 17, 8),
        (with("w\t-1\n", ""), 17, 8),
        (with("w\t5\n", "w\t2147483648\n"), 17, 6),
        (with("w\t5\n", "w\t-2147483648\n"), 9, 0),
        (with("w\t-1\n", "w\t-1\nw\t0\n"), 17, 9),
        (heavy, 13, 0),
    ];
    for (text, number, line) in cases {
        trials.text_refused(text.as_bytes(), number, line);
    }
}

/// The example cut off at every byte: the line that is cut off breaks the
/// layout.
pub(super) fn cut_example(trials: &mut Trials) {
    let whole = EXAMPLE.as_bytes();
    for end in 0..whole.len() {
        let line = 1 + whole[..end].iter().filter(|&&b| b == b'\n').count();
        trials.text_refused(&whole[..end], 17, line as u64);
    }
}

/// Texts damaged for each number that a text can be refused with.
pub(super) fn damaged(trials: &mut Trials) {
    for _ in 0..2 * trials.rounds {
        for number in damage::TEXT_NUMBERS {
            let bad = damage::text(&mut trials.rng, number);
            let made_for = u64::from(number);
            trials.equal(bad.number, made_for, "the number that it was damaged for");
            trials.text_refused(&bad.text, bad.number, bad.line);
        }
    }
}

/// Random jobs with any bytes changed, against the slow reference.
pub(super) fn changed(trials: &mut Trials) {
    for _ in 0..20 * trials.rounds {
        let rng = &mut trials.rng;
        let (_, lines) = damage::lines(rng);
        let mut text = lines.concat();
        if text.len() > 200 {
            continue;
        }
        for _ in 0..1 + rng.below(3) {
            let at = rng.below(text.len());
            let byte = b"0123456789\t\n-tw \r\x00\xff"[rng.below(19)];
            match rng.below(4) {
                0 => text[at] = byte,
                1 => text.insert(at, byte),
                2 => drop(text.remove(at)),
                _ => {
                    let other = rng.below(text.len());
                    text.swap(at, other);
                }
            }
            if text.is_empty() {
                break;
            }
        }
        trials.printed(&text, &naive::packmap(&text), "any text");
    }
}
