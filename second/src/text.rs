//! The job text and its listing: a reader by lines, the listing's lines, the
//! call of a host on bytes, and what the program packmap prints.

use crate::repair::repair;
use crate::{Answer, Extra, Refusal, Sizes, Work, TEXT_VERTICES};

/// Most bytes of a job text, and the length of packmap's listing buffer.
pub const MOST_BYTES: usize = 16_384;
/// Fixed bytes that open a job text and a listing.
pub const OPENING: &[u8] = b"pack-map";
/// Place of a text's outer triangle.
const OUTER: usize = 0;

/// A job text and the place of its next line.
pub struct Reader<'a> {
    text: &'a [u8],
    at: usize,
    line: usize,
}

impl<'a> Reader<'a> {
    pub fn new(text: &'a [u8]) -> Self {
        Reader {
            text,
            at: 0,
            line: 1,
        }
    }

    /// The text from the next line on.
    pub fn rest(&self) -> &'a [u8] {
        &self.text[self.at..]
    }

    /// Moves behind the next line and lends it without its LF. A line that is
    /// missing or lacks its LF breaks the layout.
    pub fn line(&mut self) -> Answer<&'a [u8]> {
        let rest = self.rest();
        let end = rest.iter().position(|&b| b == b'\n');
        let end = end.ok_or(self.broken())?;
        self.at += end + 1;
        self.line += 1;
        Ok(&rest[..end])
    }

    /// Row 17 at the next line.
    fn broken(&self) -> Refusal {
        Refusal {
            number: 17,
            extra: Extra::Line(self.line),
        }
    }

    /// Reads a line of a fixed opening and as many numbers as `into` holds.
    fn numbers(&mut self, opening: &[u8], least: i64, most: i64, into: &mut [i64]) -> Answer<()> {
        let broken = self.broken();
        let mut fields = self.line()?.split(|&b| b == b'\t');
        if fields.next() != Some(opening) {
            return Err(broken);
        }
        for to in into {
            let x = fields.next().and_then(number).ok_or(broken)?;
            if !(least..=most).contains(&x) {
                return Err(broken);
            }
            *to = x;
        }
        match fields.next() {
            None => Ok(()),
            Some(_) => Err(broken),
        }
    }
}

/// A whole number in its one decimal form, of at most ten digits.
fn number(field: &[u8]) -> Option<i64> {
    let (minus, digits) = match field {
        [b'-', digits @ ..] => (true, digits),
        digits => (false, digits),
    };
    match digits {
        [] => return None,
        [b'0'] => return (!minus).then_some(0),
        [b'0', ..] => return None,
        _ if digits.len() > 10 => return None,
        _ => (),
    }
    let mut x = 0;
    for d in digits {
        if !d.is_ascii_digit() {
            return None;
        }
        x = 10 * x + i64::from(d - b'0');
    }
    Some(if minus { -x } else { x })
}

/// What a job text holds, and buffers for its repair and its listing.
#[derive(Default)]
pub struct Job {
    pub n: usize,
    pub triangles: Vec<u16>,
    pub weights: Vec<i64>,
    coordinates: Vec<i64>,
    scratch: Vec<i64>,
    listing: Vec<u8>,
}

impl Job {
    /// Rows 19, 17 and 1, or the job.
    pub fn read(&mut self, text: &[u8]) -> Answer<()> {
        if text.len() > MOST_BYTES {
            return Err(Refusal::plain(19));
        }
        let mut reader = Reader::new(text);
        let mut n = [0];
        reader.numbers(OPENING, 0, 65_535, &mut n)?;
        self.n = n[0] as usize;
        if !TEXT_VERTICES.contains(&self.n) {
            return Err(Refusal::plain(1));
        }
        self.triangles.clear();
        for _ in 0..2 * self.n - 4 {
            let mut corners = [0; 3];
            reader.numbers(b"t", 0, 65_535, &mut corners)?;
            self.triangles.extend(corners.map(|v| v as u16));
        }
        self.weights.clear();
        for _ in 0..2 * self.n - 5 {
            let mut weight = [0];
            reader.numbers(b"w", i32::MIN.into(), i32::MAX.into(), &mut weight)?;
            self.weights.push(weight[0]);
        }
        if !reader.rest().is_empty() {
            return Err(reader.broken());
        }
        Ok(())
    }

    /// Writes the job as a text.
    pub fn write(n: usize, triangles: &[u16], weights: &[i64]) -> Vec<u8> {
        let mut text = Vec::new();
        line(&mut text, OPENING, &[n as i64]);
        for t in triangles.chunks_exact(3) {
            line(&mut text, b"t", &[t[0].into(), t[1].into(), t[2].into()]);
        }
        for &w in weights {
            line(&mut text, b"w", &[w]);
        }
        text
    }
}

/// Puts a line of an opening and numbers behind what stands in `out`.
fn line(out: &mut Vec<u8>, opening: &[u8], numbers: &[i64]) {
    out.extend_from_slice(opening);
    for &x in numbers {
        out.push(b'\t');
        let mut digits = [0; 20];
        let mut from = digits.len();
        let mut left = x.unsigned_abs();
        loop {
            from -= 1;
            digits[from] = b'0' + (left % 10) as u8;
            left /= 10;
            if left == 0 {
                break;
            }
        }
        if x < 0 {
            out.push(b'-');
        }
        out.extend_from_slice(&digits[from..]);
    }
    out.push(b'\n');
}

/// Reads, repairs and lists a job; the listing's length, or a refusal.
pub fn run(work: &mut Work, text: &[u8], listing: &mut [u8]) -> Answer<usize> {
    let mut job = std::mem::take(&mut work.job);
    let answer = list(work, &mut job, text, listing);
    work.job = job;
    answer
}

fn list(work: &mut Work, job: &mut Job, text: &[u8], listing: &mut [u8]) -> Answer<usize> {
    job.read(text)?;
    let sizes = Sizes::of(job.n)?;
    job.coordinates.resize(sizes.coordinates, 0);
    job.scratch.resize(sizes.scratch, 0);
    let raises = repair(
        work,
        job.n,
        OUTER,
        &job.triangles,
        &mut job.weights,
        &mut job.coordinates,
        &mut job.scratch,
    )
    // Where a text is given, 13 carries no count.
    .map_err(|refusal| Refusal::plain(refusal.number))?;
    job.listing.clear();
    let total = job.weights.iter().sum();
    line(
        &mut job.listing,
        OPENING,
        &[job.n as i64, total, raises as i64],
    );
    for (v, b) in job.coordinates.chunks_exact(3).enumerate() {
        line(&mut job.listing, b"v", &[v as i64, b[0], b[1], b[2]]);
    }
    let room = listing.get_mut(..job.listing.len());
    room.ok_or(Refusal::plain(18))?
        .copy_from_slice(&job.listing);
    Ok(job.listing.len())
}

/// The number and the line that a refusal gives to a host.
pub fn number_and_line(refusal: Refusal) -> (u64, u64) {
    let line = match refusal.extra {
        Extra::Line(line) => line as u64,
        _ => 0,
    };
    (refusal.number.into(), line)
}

/// The host's call: the listing's length, or 65,536 (1 + line) + number.
pub fn host(work: &mut Work, text: &[u8], listing: &mut [u8]) -> u64 {
    match run(work, text, listing) {
        Ok(length) => length as u64,
        Err(refusal) => {
            let (number, line) = number_and_line(refusal);
            65_536 * (1 + line) + number
        }
    }
}

/// What packmap prints for a text.
pub fn packmap(work: &mut Work, text: &[u8]) -> Vec<u8> {
    let mut listing = vec![0; MOST_BYTES];
    match run(work, text, &mut listing) {
        Ok(length) => listing.truncate(length),
        Err(refusal) => {
            let (number, at) = number_and_line(refusal);
            listing.clear();
            line(&mut listing, b"refused", &[number as i64, at as i64]);
        }
    }
    listing
}
