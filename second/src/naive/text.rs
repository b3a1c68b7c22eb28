//! The slow job text: a reader by the standard number parser, and what packmap
//! prints by the slow references alone.

use super::{labels, refusal, too_heavy, Labelled};

/// The first triangle of a text is the outer one.
const OUTER: usize = 0;

/// What a job text comes to.
#[derive(Debug, PartialEq)]
pub enum Verdict {
    /// Number and line.
    Refused(u64, u64),
    Job(usize, Vec<u16>, Vec<i64>),
}

/// A number in the form that printing it gives.
fn value(field: &str, least: i64, most: i64) -> Option<i64> {
    let x: i64 = field.parse().ok()?;
    (x.to_string() == field && x >= least && x <= most).then_some(x)
}

/// The numbers of a line that is there, ends in LF and has the given name and
/// count of numbers.
fn numbers(
    line: Option<&&str>,
    name: &str,
    (least, most): (i64, i64),
    count: usize,
) -> Option<Vec<i64>> {
    let mut fields: Vec<&str> = line?.strip_suffix('\n')?.split('\t').collect();
    if fields.remove(0) != name || fields.len() != count {
        return None;
    }
    fields.iter().map(|f| value(f, least, most)).collect()
}

/// Reads a job text line by line; each byte counts as one character.
pub fn read(text: &[u8]) -> Verdict {
    if text.len() > 16_384 {
        return Verdict::Refused(19, 0);
    }
    let text: String = text.iter().map(|&b| char::from(b)).collect();
    let lines: Vec<&str> = text.split_inclusive('\n').collect();
    let Some(first) = numbers(lines.first(), "pack-map", (0, 65_535), 1) else {
        return Verdict::Refused(17, 1);
    };
    let n = first[0] as usize;
    if !(3..=256).contains(&n) {
        return Verdict::Refused(1, 0);
    }
    let (mut triangles, mut weights) = (vec![], vec![]);
    for i in 1..4 * n - 8 {
        let found = if i <= 2 * n - 4 {
            numbers(lines.get(i), "t", (0, 65_535), 3)
        } else {
            numbers(lines.get(i), "w", (-2_147_483_648, 2_147_483_647), 1)
        };
        match found {
            None => return Verdict::Refused(17, i as u64 + 1),
            Some(v) if v.len() == 3 => triangles.extend(v.iter().map(|&v| v as u16)),
            Some(v) => weights.extend(v),
        }
    }
    if lines.len() > 4 * n - 8 {
        return Verdict::Refused(17, 4 * n as u64 - 7);
    }
    Verdict::Job(n, triangles, weights)
}

/// What packmap prints.
pub fn packmap(text: &[u8]) -> String {
    let refused = |number: u64, line: u64| format!("refused\t{number}\t{line}\n");
    let (n, triangles, mut weights) = match read(text) {
        Verdict::Refused(number, line) => return refused(number, line),
        Verdict::Job(n, triangles, weights) => (n, triangles, weights),
    };
    if let Some(found) = refusal(n, OUTER, &triangles) {
        return refused(found.number.into(), 0);
    }
    if too_heavy(&weights) {
        return refused(9, 0);
    }
    let labels = labels(n, OUTER, &triangles);
    let mesh = Labelled::new(n, OUTER, &triangles, &labels);
    let (raises, stopped) = mesh.repair(&mut weights);
    if stopped {
        return refused(13, 0);
    }
    let total: i64 = weights.iter().sum();
    let mut out = format!("pack-map\t{n}\t{total}\t{}\n", raises.len());
    for (v, b) in mesh.forward(&weights).chunks(3).enumerate() {
        out += &format!("v\t{v}\t{}\t{}\t{}\n", b[0], b[1], b[2]);
    }
    out
}
