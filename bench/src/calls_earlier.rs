//! The proved calls of an earlier archive by name. bench/run puts `earlier_` before the
//! archive's names, so that both are in one program and take turns.

use crate::{refused, Call, Lent};

extern "C" {
    fn earlier_packmap_mesh_check(
        n: usize,
        #[cfg(not(feature = "without-outer"))] outer: usize,
        triangles: *const u16,
        triangles_len: usize,
        scratch: *mut i64,
        scratch_len: usize,
        carried: *mut u64,
    ) -> u64;

    fn earlier_packmap_labels(
        n: usize,
        #[cfg(not(feature = "without-outer"))] outer: usize,
        triangles: *const u16,
        triangles_len: usize,
        labels: *mut u8,
        labels_len: usize,
        scratch: *mut i64,
        scratch_len: usize,
        carried: *mut u64,
    ) -> u64;

    fn earlier_packmap_forward(
        n: usize,
        #[cfg(not(feature = "without-outer"))] outer: usize,
        triangles: *const u16,
        triangles_len: usize,
        weights: *const i64,
        weights_len: usize,
        coordinates: *mut i64,
        coordinates_len: usize,
        scratch: *mut i64,
        scratch_len: usize,
        carried: *mut u64,
    ) -> u64;

    #[cfg(not(feature = "without-range"))]
    fn earlier_packmap_forward_range(
        n: usize,
        outer: usize,
        triangles: *const u16,
        triangles_len: usize,
        lows: *const i64,
        lows_len: usize,
        highs: *const i64,
        highs_len: usize,
        low_coordinates: *mut i64,
        low_coordinates_len: usize,
        high_coordinates: *mut i64,
        high_coordinates_len: usize,
        scratch: *mut i64,
        scratch_len: usize,
        carried: *mut u64,
    ) -> u64;

    fn earlier_packmap_backward(
        n: usize,
        #[cfg(not(feature = "without-outer"))] outer: usize,
        triangles: *const u16,
        triangles_len: usize,
        coordinates: *const i64,
        coordinates_len: usize,
        weights: *mut i64,
        weights_len: usize,
        scratch: *mut i64,
        scratch_len: usize,
        carried: *mut u64,
    ) -> u64;

    fn earlier_packmap_repair(
        n: usize,
        #[cfg(not(feature = "without-outer"))] outer: usize,
        triangles: *const u16,
        triangles_len: usize,
        weights: *mut i64,
        weights_len: usize,
        coordinates: *mut i64,
        coordinates_len: usize,
        scratch: *mut i64,
        scratch_len: usize,
        carried: *mut u64,
    ) -> u64;

    fn earlier_packmap_snap_points(
        n: usize,
        shares: *const f64,
        shares_len: usize,
        scale: u32,
        coordinates: *mut i64,
        coordinates_len: usize,
        outside: *mut f64,
    ) -> u64;

    fn earlier_packmap_job(
        text: *const u8,
        text_len: usize,
        listing: *mut u8,
        listing_len: usize,
    ) -> u64;
}

// SAFETY of every call below: a pointer and a length come from one slice, and no two slices
// overlap.

/// A call on a mesh: what it carries where it is not refused, or what stands for the refusal.
/// Before C-12 it took no outer number.
macro_rules! on_mesh {
    ($call:ident, $lent:ident, $($slice:expr),*) => {{
        let (mut carried, triangles) = (0, &$lent.triangles);
        let (start, length) = (triangles.as_ptr(), triangles.len());
        #[cfg(feature = "without-outer")]
        let number = unsafe { $call($lent.n, start, length, $($slice),*, &mut carried) };
        #[cfg(not(feature = "without-outer"))]
        let number = unsafe { $call($lent.n, $lent.outer, start, length, $($slice),*, &mut carried) };
        answer(number, carried)
    }};
}

fn answer(number: u64, carried: u64) -> u64 {
    match number {
        0 => carried,
        _ => refused(number as u8),
    }
}

fn check(l: &mut Lent) -> u64 {
    on_mesh!(
        earlier_packmap_mesh_check,
        l,
        l.scratch.as_mut_ptr(),
        l.scratch.len()
    )
}

fn labels(l: &mut Lent) -> u64 {
    on_mesh!(
        earlier_packmap_labels,
        l,
        l.labels.as_mut_ptr(),
        l.labels.len(),
        l.scratch.as_mut_ptr(),
        l.scratch.len()
    )
}

fn forward(l: &mut Lent) -> u64 {
    on_mesh!(
        earlier_packmap_forward,
        l,
        l.weights.as_ptr(),
        l.weights.len(),
        l.coordinates.as_mut_ptr(),
        l.coordinates.len(),
        l.scratch.as_mut_ptr(),
        l.scratch.len()
    )
}

#[cfg(not(feature = "without-range"))]
fn range(l: &mut Lent) -> u64 {
    on_mesh!(
        earlier_packmap_forward_range,
        l,
        l.weights.as_ptr(),
        l.weights.len(),
        l.highs.as_ptr(),
        l.highs.len(),
        l.coordinates.as_mut_ptr(),
        l.coordinates.len(),
        l.high_coordinates.as_mut_ptr(),
        l.high_coordinates.len(),
        l.scratch.as_mut_ptr(),
        l.scratch.len()
    )
}

fn backward(l: &mut Lent) -> u64 {
    on_mesh!(
        earlier_packmap_backward,
        l,
        l.coordinates.as_ptr(),
        l.coordinates.len(),
        l.weights.as_mut_ptr(),
        l.weights.len(),
        l.scratch.as_mut_ptr(),
        l.scratch.len()
    )
}

fn repair(l: &mut Lent) -> u64 {
    on_mesh!(
        earlier_packmap_repair,
        l,
        l.weights.as_mut_ptr(),
        l.weights.len(),
        l.coordinates.as_mut_ptr(),
        l.coordinates.len(),
        l.scratch.as_mut_ptr(),
        l.scratch.len()
    )
}

fn snapping(l: &mut Lent) -> u64 {
    let number = unsafe {
        earlier_packmap_snap_points(
            l.n,
            l.shares.as_ptr(),
            l.shares.len(),
            0,
            l.coordinates.as_mut_ptr(),
            l.coordinates.len(),
            &mut 0.0,
        )
    };
    answer(number, 0)
}

fn job(l: &mut Lent) -> u64 {
    let length = unsafe {
        earlier_packmap_job(
            l.text.as_ptr(),
            l.text.len(),
            l.listing.as_mut_ptr(),
            l.listing.len(),
        )
    };
    match length {
        0..=65_535 => length,
        _ => refused((length % 65_536) as u8),
    }
}

/// A call, if the archive has it.
pub fn call(name: &str) -> Option<Call> {
    Some(match name {
        "check" => |_, l| check(l),
        "labels" => |_, l| labels(l),
        "forward" => |_, l| forward(l),
        #[cfg(not(feature = "without-range"))]
        "range" => |_, l| range(l),
        "backward" => |_, l| backward(l),
        "repair" => |_, l| repair(l),
        "snapping" => |_, l| snapping(l),
        "job" => |_, l| job(l),
        _ => return None,
    })
}
