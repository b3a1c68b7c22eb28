//! Why a call refused its input.

use std::error::Error;
use std::fmt;

/// Why a call refused its input: a case for each number of the calls in C.
///
/// A call tests in the order in which its `# Errors` section lists the cases, and answers with the
/// first that holds.
#[non_exhaustive]
#[derive(Clone, Copy, Debug, PartialEq)]
pub enum Refusal {
    /// 1: `n` is not within 3 to 4,096; in a job text, 3 to 256.
    VertexCount,
    /// 2: a slice does not have the length that goes with `n`.
    Length,
    /// 3: a triangle names a vertex that is `n` or more.
    VertexNumber,
    /// 4: a triangle names a vertex twice.
    VertexTwice,
    /// 5: a side, from one vertex to another, occurs twice.
    SideTwice,
    /// 6: a side occurs, and its opposite does not.
    SideAlone,
    /// 7: the triangles around a vertex form several closed rings.
    Ring {
        /// The lowest vertex that is refused as this or as [`Stray`](Self::Stray). The calls on a
        /// mesh tell it, [`job`](crate::job) does not.
        vertex: Option<u64>,
    },
    /// 8: the triangles are not connected.
    Pieces,
    /// 9: the absolute values of the weights sum to more than [`LIMIT`](crate::LIMIT).
    Weights,
    /// 10: a coordinate is past [`LIMIT`](crate::LIMIT) or below its negative.
    Coordinate,
    /// 11: v0, v1 and v2 are not at (N, 0, 0), (0, N, 0) and (0, 0, N), N being b0 of v0.
    Corner,
    /// 12: the three coordinates of a vertex do not sum to N.
    Sum,
    /// 13: with the next raise, the weights would be refused as [`Weights`](Self::Weights).
    Raise {
        /// Raises made before it. [`repair`](crate::repair) tells them, [`job`](crate::job) does
        /// not.
        raises: Option<u64>,
    },
    /// 14: the scale is neither 0 nor within 4 to 24.
    Scale,
    /// 15: a share is infinite or not a number.
    NotFinite,
    /// 16: a share is not within -2 to 2.
    Share {
        /// The share.
        share: f64,
    },
    /// 17: a line of the job text is missing, is one too many, or does not have its form.
    Line {
        /// Where the line stands, or should stand, counted from 1.
        line: usize,
    },
    /// 18: the listing buffer is shorter than the listing.
    Listing,
    /// 19: the job text has more than [`JOB_BYTES`](crate::JOB_BYTES) bytes.
    Text,
    /// 21: `outer` is `2n - 4` or more, so that no triangle has this place.
    OuterNumber,
    /// 25: a vertex is in no triangle. It is looked for together with [`Ring`](Self::Ring).
    Stray {
        /// The lowest vertex that is refused as this or as [`Ring`](Self::Ring). The calls on a
        /// mesh tell it, [`job`](crate::job) does not.
        vertex: Option<u64>,
    },
    /// 29: a low is above its high.
    Range,
}

impl Refusal {
    /// The refusal of a number that carries nothing, or with which nothing was told.
    ///
    /// # Panics
    /// If the call has no such refusal: the archive then is not one for this crate.
    #[cold]
    pub(crate) fn plain(number: u64) -> Refusal {
        match number {
            1 => Refusal::VertexCount,
            2 => Refusal::Length,
            3 => Refusal::VertexNumber,
            4 => Refusal::VertexTwice,
            5 => Refusal::SideTwice,
            6 => Refusal::SideAlone,
            7 => Refusal::Ring { vertex: None },
            8 => Refusal::Pieces,
            9 => Refusal::Weights,
            10 => Refusal::Coordinate,
            11 => Refusal::Corner,
            12 => Refusal::Sum,
            13 => Refusal::Raise { raises: None },
            14 => Refusal::Scale,
            15 => Refusal::NotFinite,
            18 => Refusal::Listing,
            19 => Refusal::Text,
            21 => Refusal::OuterNumber,
            25 => Refusal::Stray { vertex: None },
            29 => Refusal::Range,
            _ => panic!("libpackmap.a is not the one for this crate: it answered {number}"),
        }
    }

    /// The refusal of a call on a mesh, with the number that it carried if it carries one.
    ///
    /// # Panics
    /// As [`plain`](Self::plain).
    #[cold]
    pub(crate) fn carrying(number: u64, carried: u64) -> Refusal {
        let carried = Some(carried);
        match number {
            7 => Refusal::Ring { vertex: carried },
            13 => Refusal::Raise { raises: carried },
            25 => Refusal::Stray { vertex: carried },
            _ => Refusal::plain(number),
        }
    }

    /// Its number, 1 to 19, 21, 25 or 29, as the calls in C and the program packmap give it.
    pub const fn number(self) -> u8 {
        match self {
            Refusal::VertexCount => 1,
            Refusal::Length => 2,
            Refusal::VertexNumber => 3,
            Refusal::VertexTwice => 4,
            Refusal::SideTwice => 5,
            Refusal::SideAlone => 6,
            Refusal::Ring { .. } => 7,
            Refusal::Pieces => 8,
            Refusal::Weights => 9,
            Refusal::Coordinate => 10,
            Refusal::Corner => 11,
            Refusal::Sum => 12,
            Refusal::Raise { .. } => 13,
            Refusal::Scale => 14,
            Refusal::NotFinite => 15,
            Refusal::Share { .. } => 16,
            Refusal::Line { .. } => 17,
            Refusal::Listing => 18,
            Refusal::Text => 19,
            Refusal::OuterNumber => 21,
            Refusal::Stray { .. } => 25,
            Refusal::Range => 29,
        }
    }

    /// What is wrong, in words: those of `packmap_words` in C.
    pub const fn words(self) -> &'static str {
        match self {
            Refusal::VertexCount => "the number of vertices is out of range",
            Refusal::Length => "a slice has the wrong length",
            Refusal::VertexNumber => "a vertex number is not below the number of vertices",
            Refusal::VertexTwice => "a triangle has a vertex twice",
            Refusal::SideTwice => "two triangles have the same side in the same direction",
            Refusal::SideAlone => "a side has no triangle on its other side",
            Refusal::Ring { .. } => "the triangles at a vertex form several rings",
            Refusal::Pieces => "the mesh has several pieces",
            Refusal::Weights => "the weights are too large",
            Refusal::Coordinate => "a coordinate is too large",
            Refusal::Corner => "an outer vertex is not at its corner",
            Refusal::Sum => "the coordinates of a vertex do not sum to the total",
            Refusal::Raise { .. } => "the next raise would make the weights too large",
            Refusal::Scale => "there is no such scale",
            Refusal::NotFinite => "a share is infinite or not a number",
            Refusal::Share { .. } => "a share is not between -2 and 2",
            Refusal::Line { .. } => "a line of the text breaks the layout",
            Refusal::Listing => "the listing buffer is too short",
            Refusal::Text => "the text is too long",
            Refusal::OuterNumber => "the outer number is not below the number of triangles",
            Refusal::Stray { .. } => "a vertex is in no triangle",
            Refusal::Range => "a low weight is above its high one",
        }
    }
}

/// The words, and what the refusal carries in brackets behind them.
impl fmt::Display for Refusal {
    fn fmt(&self, f: &mut fmt::Formatter<'_>) -> fmt::Result {
        f.write_str(self.words())?;
        match *self {
            Refusal::Ring {
                vertex: Some(vertex),
            }
            | Refusal::Stray {
                vertex: Some(vertex),
            } => write!(f, " (vertex: {vertex})"),
            Refusal::Raise {
                raises: Some(raises),
            } => write!(f, " (raises: {raises})"),
            Refusal::Share { share } => write!(f, " (share: {share:?})"),
            Refusal::Line { line } => write!(f, " (line: {line})"),
            _ => Ok(()),
        }
    }
}

impl Error for Refusal {}
