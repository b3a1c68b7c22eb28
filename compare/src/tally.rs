//! How many calls of one kind agree, and which answers were met.

use packmap::Refusal;
use second::{Answer, Extra};

/// An answer of a proved call as the second program would give it.
pub fn told<T>(answer: Result<T, Refusal>) -> Answer<T> {
    answer.map_err(|refusal| second::Refusal {
        number: refusal.number(),
        extra: match refusal {
            Refusal::Ring {
                vertex: Some(vertex),
            }
            | Refusal::Stray {
                vertex: Some(vertex),
            } => Extra::Vertex(vertex as usize),
            Refusal::Raise {
                raises: Some(raises),
            } => Extra::Count(raises as usize),
            Refusal::Share { share } => Extra::Share(share),
            Refusal::Line { line } => Extra::Line(line),
            _ => Extra::Nothing,
        },
    })
}

pub struct Tally {
    name: &'static str,
    wanted: &'static [usize],
    met: [u64; 30],
    agree: u64,
    differ: u64,
}

impl Tally {
    /// A group of calls that is to meet each of these numbers; 0 stands for no refusal.
    pub fn new(name: &'static str, wanted: &'static [usize]) -> Tally {
        Tally {
            name,
            wanted,
            met: [0; 30],
            agree: 0,
            differ: 0,
        }
    }

    /// Counts a call by the proved answer, and by whether all is the same.
    pub fn count<T>(&mut self, answer: Answer<T>, same: bool, what: impl Fn() -> String) {
        self.met[answer.err().map_or(0, |refusal| refusal.number as usize)] += 1;
        if same {
            self.agree += 1;
            return;
        }
        self.differ += 1;
        if self.differ <= 3 {
            eprintln!("{} differs: {}", self.name, what());
        }
    }

    /// Whether all calls agree and every number was met.
    pub fn passed(&self) -> bool {
        let missed: Vec<_> = self.wanted.iter().filter(|&&k| self.met[k] == 0).collect();
        println!(
            "{}: {} calls agree, {} differ; never met: {missed:?}",
            self.name, self.agree, self.differ
        );
        self.differ == 0 && missed.is_empty()
    }
}
