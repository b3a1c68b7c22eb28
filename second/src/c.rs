//! The second program's calls on a mesh and its host call for C, under names of
//! their own.

use crate::{labels, maps, mesh, repair, text, Answer, Extra, Work};
use std::cell::RefCell;
use std::slice::{from_raw_parts, from_raw_parts_mut};

thread_local!(static WORK: RefCell<Work> = RefCell::default());

/// 0 or the number of the refusal; what the answer carries goes to `carried`.
fn told(answer: Answer<Option<usize>>, carried: &mut u64) -> u64 {
    let (number, told) = match answer {
        Ok(count) => (0, count),
        Err(refusal) => match refusal.extra {
            Extra::Vertex(told) | Extra::Count(told) => (refusal.number, Some(told)),
            _ => (refusal.number, None),
        },
    };
    if let Some(told) = told {
        *carried = told as u64;
    }
    number.into()
}

/// As `packmap_mesh_check`.
///
/// # Safety
/// Every pointer reaches as many items as told, and what is written overlaps
/// nothing else.
#[no_mangle]
pub unsafe extern "C" fn second_mesh_check(
    n: usize,
    outer: usize,
    triangles: *const u16,
    triangles_len: usize,
    scratch: *mut i64,
    scratch_len: usize,
    carried: &mut u64,
) -> u64 {
    let triangles = from_raw_parts(triangles, triangles_len);
    let scratch = from_raw_parts_mut(scratch, scratch_len);
    let answer = WORK.with_borrow_mut(|work| mesh::check(work, n, outer, triangles, scratch));
    told(answer.map(|()| None), carried)
}

/// As `packmap_labels`.
///
/// # Safety
/// As of `second_mesh_check`.
#[no_mangle]
pub unsafe extern "C" fn second_labels(
    n: usize,
    outer: usize,
    triangles: *const u16,
    triangles_len: usize,
    to: *mut u8,
    to_len: usize,
    scratch: *mut i64,
    scratch_len: usize,
    carried: &mut u64,
) -> u64 {
    let triangles = from_raw_parts(triangles, triangles_len);
    let to = from_raw_parts_mut(to, to_len);
    let scratch = from_raw_parts_mut(scratch, scratch_len);
    let answer =
        WORK.with_borrow_mut(|work| labels::labels(work, n, outer, triangles, to, scratch));
    told(answer.map(|()| None), carried)
}

/// As `packmap_forward`.
///
/// # Safety
/// As of `second_mesh_check`.
#[no_mangle]
pub unsafe extern "C" fn second_forward(
    n: usize,
    outer: usize,
    triangles: *const u16,
    triangles_len: usize,
    weights: *const i64,
    weights_len: usize,
    b: *mut i64,
    b_len: usize,
    scratch: *mut i64,
    scratch_len: usize,
    carried: &mut u64,
) -> u64 {
    let triangles = from_raw_parts(triangles, triangles_len);
    let weights = from_raw_parts(weights, weights_len);
    let b = from_raw_parts_mut(b, b_len);
    let scratch = from_raw_parts_mut(scratch, scratch_len);
    let answer =
        WORK.with_borrow_mut(|work| maps::forward(work, n, outer, triangles, weights, b, scratch));
    told(answer.map(|()| None), carried)
}

/// As `packmap_forward_range`.
///
/// # Safety
/// As of `second_mesh_check`.
#[no_mangle]
pub unsafe extern "C" fn second_forward_range(
    n: usize,
    outer: usize,
    triangles: *const u16,
    triangles_len: usize,
    lows: *const i64,
    lows_len: usize,
    highs: *const i64,
    highs_len: usize,
    low: *mut i64,
    low_len: usize,
    high: *mut i64,
    high_len: usize,
    scratch: *mut i64,
    scratch_len: usize,
    carried: &mut u64,
) -> u64 {
    let triangles = from_raw_parts(triangles, triangles_len);
    let weights = [
        from_raw_parts(lows, lows_len),
        from_raw_parts(highs, highs_len),
    ];
    let b = [
        from_raw_parts_mut(low, low_len),
        from_raw_parts_mut(high, high_len),
    ];
    let scratch = from_raw_parts_mut(scratch, scratch_len);
    let answer = WORK.with_borrow_mut(|work| {
        maps::forward_range(work, n, outer, triangles, weights, b, scratch)
    });
    told(answer.map(|()| None), carried)
}

/// As `packmap_backward`.
///
/// # Safety
/// As of `second_mesh_check`.
#[no_mangle]
pub unsafe extern "C" fn second_backward(
    n: usize,
    outer: usize,
    triangles: *const u16,
    triangles_len: usize,
    b: *const i64,
    b_len: usize,
    weights: *mut i64,
    weights_len: usize,
    scratch: *mut i64,
    scratch_len: usize,
    carried: &mut u64,
) -> u64 {
    let triangles = from_raw_parts(triangles, triangles_len);
    let b = from_raw_parts(b, b_len);
    let weights = from_raw_parts_mut(weights, weights_len);
    let scratch = from_raw_parts_mut(scratch, scratch_len);
    let answer =
        WORK.with_borrow_mut(|work| maps::backward(work, n, outer, triangles, b, weights, scratch));
    told(answer.map(|()| None), carried)
}

/// As `packmap_repair`.
///
/// # Safety
/// As of `second_mesh_check`.
#[no_mangle]
pub unsafe extern "C" fn second_repair(
    n: usize,
    outer: usize,
    triangles: *const u16,
    triangles_len: usize,
    weights: *mut i64,
    weights_len: usize,
    b: *mut i64,
    b_len: usize,
    scratch: *mut i64,
    scratch_len: usize,
    carried: &mut u64,
) -> u64 {
    let triangles = from_raw_parts(triangles, triangles_len);
    let weights = from_raw_parts_mut(weights, weights_len);
    let b = from_raw_parts_mut(b, b_len);
    let scratch = from_raw_parts_mut(scratch, scratch_len);
    let answer =
        WORK.with_borrow_mut(|work| repair::repair(work, n, outer, triangles, weights, b, scratch));
    told(answer.map(Some), carried)
}

/// As `packmap_job`.
///
/// # Safety
/// Both pointers reach as many bytes as told, and the two do not overlap.
#[no_mangle]
pub unsafe extern "C" fn second_job(text: *const u8, len: usize, to: *mut u8, room: usize) -> u64 {
    let (text, listing) = (from_raw_parts(text, len), from_raw_parts_mut(to, room));
    WORK.with_borrow_mut(|work| text::host(work, text, listing))
}
