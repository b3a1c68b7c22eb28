//! The calls on slices.

use crate::c;
use crate::refusal::Refusal;

// SAFETY of every call below: a pointer and a length come from one slice, so the pointer is not
// null, is aligned and leads to as many items. The slices are borrowed until the call returns,
// those that it writes exclusively, so they do not overlap; what a call carries goes to a local. The calls have no other demands: they
// test lengths and contents themselves, and keep no pointer.

/// Nothing, or the refusal of a call on a mesh: `call` answers its number, and leaves what it
/// carries in the number that it is lent.
#[inline]
fn done(call: impl FnOnce(&mut u64) -> u64) -> Result<(), Refusal> {
    counted(call).map(|_| ())
}

/// The same, with what the call carries where it is not refused.
#[inline]
fn counted(call: impl FnOnce(&mut u64) -> u64) -> Result<u64, Refusal> {
    let mut carried = 0;
    match call(&mut carried) {
        0 => Ok(carried),
        number => Err(Refusal::carrying(number, carried)),
    }
}

/// Tests that the triangles form a sphere: every side once and its opposite once, around each
/// vertex one ring of triangles, and one connected piece. Whether they do is the same for every
/// `outer` that is a place.
///
/// # Errors
/// [`VertexCount`](Refusal::VertexCount), [`Length`](Refusal::Length),
/// [`OuterNumber`](Refusal::OuterNumber), [`VertexNumber`](Refusal::VertexNumber),
/// [`VertexTwice`](Refusal::VertexTwice), [`SideTwice`](Refusal::SideTwice),
/// [`SideAlone`](Refusal::SideAlone), [`Ring`](Refusal::Ring) or [`Stray`](Refusal::Stray),
/// [`Pieces`](Refusal::Pieces).
#[inline]
pub fn check(
    n: usize,
    outer: usize,
    triangles: &[u16],
    scratch: &mut [i64],
) -> Result<(), Refusal> {
    // SAFETY: see above.
    done(|carried| unsafe {
        c::packmap_mesh_check(
            n,
            outer,
            triangles.as_ptr(),
            triangles.len(),
            scratch.as_mut_ptr(),
            scratch.len(),
            carried,
        )
    })
}

/// Writes a label 0, 1 or 2 for each corner of each inner triangle, in the order of the triangles:
/// the Schnyder labelling that comes from removing, again and again, the smallest-numbered vertex
/// that can be removed.
///
/// # Errors
/// Those of [`check`].
#[inline]
pub fn labels(
    n: usize,
    outer: usize,
    triangles: &[u16],
    labels: &mut [u8],
    scratch: &mut [i64],
) -> Result<(), Refusal> {
    // SAFETY: see above.
    done(|carried| unsafe {
        c::packmap_labels(
            n,
            outer,
            triangles.as_ptr(),
            triangles.len(),
            labels.as_mut_ptr(),
            labels.len(),
            scratch.as_mut_ptr(),
            scratch.len(),
            carried,
        )
    })
}

/// Writes the coordinates b0, b1, b2 of each vertex that the weights give. They sum to N, the sum
/// of the weights, which may be any; v0 is at (N, 0, 0), v1 at (0, N, 0) and v2 at (0, 0, N). With
/// all weights 1 or more, no inner triangle is flat or turned.
///
/// # Errors
/// Those of [`check`], then [`Weights`](Refusal::Weights).
#[inline]
pub fn forward(
    n: usize,
    outer: usize,
    triangles: &[u16],
    weights: &[i64],
    coordinates: &mut [i64],
    scratch: &mut [i64],
) -> Result<(), Refusal> {
    // SAFETY: see above.
    done(|carried| unsafe {
        c::packmap_forward(
            n,
            outer,
            triangles.as_ptr(),
            triangles.len(),
            weights.as_ptr(),
            weights.len(),
            coordinates.as_mut_ptr(),
            coordinates.len(),
            scratch.as_mut_ptr(),
            scratch.len(),
            carried,
        )
    })
}

/// Writes the low and the high of each coordinate where each weight has a low and a high. They are
/// the coordinates of the lows and those of the highs, so that both ends are reached, and no weights
/// within the ranges give a coordinate that passes them. With all lows 1 or more, no weights within
/// the ranges leave an inner triangle flat or turned.
///
/// # Errors
/// Those of [`check`], with [`Range`](Refusal::Range) between [`OuterNumber`](Refusal::OuterNumber)
/// and [`VertexNumber`](Refusal::VertexNumber); then [`Weights`](Refusal::Weights), of either list.
#[inline]
#[allow(clippy::too_many_arguments)] // a slice each, as in C
pub fn forward_range(
    n: usize,
    outer: usize,
    triangles: &[u16],
    lows: &[i64],
    highs: &[i64],
    low_coordinates: &mut [i64],
    high_coordinates: &mut [i64],
    scratch: &mut [i64],
) -> Result<(), Refusal> {
    // SAFETY: see above.
    done(|carried| unsafe {
        c::packmap_forward_range(
            n,
            outer,
            triangles.as_ptr(),
            triangles.len(),
            lows.as_ptr(),
            lows.len(),
            highs.as_ptr(),
            highs.len(),
            low_coordinates.as_mut_ptr(),
            low_coordinates.len(),
            high_coordinates.as_mut_ptr(),
            high_coordinates.len(),
            scratch.as_mut_ptr(),
            scratch.len(),
            carried,
        )
    })
}

/// Writes the weights that the coordinates give. [`forward`] and `backward` undo each other.
///
/// # Errors
/// Those of [`check`], then [`Coordinate`](Refusal::Coordinate),
/// [`Corner`](Refusal::Corner), [`Sum`](Refusal::Sum),
/// [`Weights`](Refusal::Weights).
#[inline]
pub fn backward(
    n: usize,
    outer: usize,
    triangles: &[u16],
    coordinates: &[i64],
    weights: &mut [i64],
    scratch: &mut [i64],
) -> Result<(), Refusal> {
    // SAFETY: see above.
    done(|carried| unsafe {
        c::packmap_backward(
            n,
            outer,
            triangles.as_ptr(),
            triangles.len(),
            coordinates.as_ptr(),
            coordinates.len(),
            weights.as_mut_ptr(),
            weights.len(),
            scratch.as_mut_ptr(),
            scratch.len(),
            carried,
        )
    })
}

/// Raises weights until N, their sum, is 1 or more and no inner triangle is flat or turned, writes
/// the coordinates of the new weights, and returns the number of raises. A raise adds to the weight
/// of the lowest-numbered triangle that is flat or turned. But where N is below 1, the first inner
/// triangle is raised first, by the larger of its own raise and 1 - N. No triangle is raised twice.
///
/// # Errors
/// Those of [`check`], then [`Weights`](Refusal::Weights),
/// [`Raise`](Refusal::Raise). The last one leaves the weights as they are after the
/// raises that it counts, and writes their coordinates.
#[inline]
pub fn repair(
    n: usize,
    outer: usize,
    triangles: &[u16],
    weights: &mut [i64],
    coordinates: &mut [i64],
    scratch: &mut [i64],
) -> Result<u64, Refusal> {
    // SAFETY: see above.
    counted(|carried| unsafe {
        c::packmap_repair(
            n,
            outer,
            triangles.as_ptr(),
            triangles.len(),
            weights.as_mut_ptr(),
            weights.len(),
            coordinates.as_mut_ptr(),
            coordinates.len(),
            scratch.as_mut_ptr(),
            scratch.len(),
            carried,
        )
    })
}

/// Writes the coordinates of drawn points. A point is a pair of shares: x of v0 and y of v1, each
/// within -2 to 2. With a scale r of 4 to 24, or 0 for 20, a share becomes the whole number nearest
/// to share × 2^r, of two that are equally near the even one, and the coordinates are
/// (kx, ky, 2^r - kx - ky).
///
/// There is no mesh here and no scratch: `n` is the number of points.
///
/// # Errors
/// [`VertexCount`](Refusal::VertexCount), [`Length`](Refusal::Length),
/// [`Scale`](Refusal::Scale); then for each share in turn
/// [`NotFinite`](Refusal::NotFinite), [`Share`](Refusal::Share).
#[inline]
pub fn snap_points(
    n: usize,
    shares: &[f64],
    scale: u32,
    coordinates: &mut [i64],
) -> Result<(), Refusal> {
    let mut share = 0.0;
    // SAFETY: see above; the share is written to a local.
    let number = unsafe {
        c::packmap_snap_points(
            n,
            shares.as_ptr(),
            shares.len(),
            scale,
            coordinates.as_mut_ptr(),
            coordinates.len(),
            &mut share,
        )
    };
    match number {
        0 => Ok(()),
        16 => Err(Refusal::Share { share }),
        _ => Err(Refusal::plain(number)),
    }
}

/// Reads a job text (`n`, the triangles, the weights), repairs the weights, writes the listing
/// (`n`, N, the number of raises, the coordinates) to the front of the buffer, and returns its
/// length. The first triangle of a text is the outer one. Bytes past the listing keep what they
/// held.
///
/// A text has at most [`JOB_BYTES`](crate::JOB_BYTES) bytes and
/// [`MOST_JOB_VERTICES`](crate::MOST_JOB_VERTICES) vertices.
///
/// ```
/// let text = "pack-map\t4\nt\t0\t2\t1\nt\t0\t3\t2\nt\t3\t1\t2\nt\t0\t1\t3\nw\t5\nw\t3\nw\t-1\n";
/// let mut listing = [0; packmap::JOB_BYTES];
/// let length = packmap::job(text.as_bytes(), &mut listing)?;
/// let wanted = "pack-map\t4\t9\t1\nv\t0\t9\t0\t0\nv\t1\t0\t9\t0\nv\t2\t0\t0\t9\nv\t3\t3\t5\t1\n";
/// assert_eq!(listing[..length], *wanted.as_bytes());
/// # Ok::<(), packmap::Refusal>(())
/// ```
///
/// # Errors
/// [`Text`](Refusal::Text); [`Line`](Refusal::Line) for each line in turn, with
/// [`VertexCount`](Refusal::VertexCount) directly after the first; those of [`check`] from
/// [`VertexNumber`](Refusal::VertexNumber) on, without the vertex;
/// [`Weights`](Refusal::Weights), [`Raise`](Refusal::Raise) without its count,
/// [`Listing`](Refusal::Listing).
#[inline]
pub fn job(text: &[u8], listing: &mut [u8]) -> Result<usize, Refusal> {
    // SAFETY: see above.
    let answer = unsafe {
        c::packmap_job(
            text.as_ptr(),
            text.len(),
            listing.as_mut_ptr(),
            listing.len(),
        )
    };
    // The length of the listing, or 65,536 (1 + line) + number.
    match (answer / 65_536, answer % 65_536) {
        (0, length) => Ok(length as usize),
        (lines, 17) => Err(Refusal::Line {
            line: lines as usize - 1,
        }),
        (_, number) => Err(Refusal::plain(number)),
    }
}
