//! The second program's calls by name.

use crate::{refused, Call};
use second::{labels, maps, mesh, repair, snap, text, Answer};

/// 0, or what stands for the refusal.
fn done(call: Answer<()>) -> u64 {
    call.map_or_else(|refusal| refused(refusal.number), |()| 0)
}

pub fn call(name: &str) -> Call {
    match name {
        "check" => |w, l| done(mesh::check(w, l.n, l.outer, &l.triangles, &mut l.scratch)),
        "labels" => |w, l| {
            done(labels::labels(
                w,
                l.n,
                l.outer,
                &l.triangles,
                &mut l.labels,
                &mut l.scratch,
            ))
        },
        "forward" => |w, l| {
            done(maps::forward(
                w,
                l.n,
                l.outer,
                &l.triangles,
                &l.weights,
                &mut l.coordinates,
                &mut l.scratch,
            ))
        },
        "range" => |w, l| {
            done(maps::forward_range(
                w,
                l.n,
                l.outer,
                &l.triangles,
                [&l.weights, &l.highs],
                [&mut l.coordinates, &mut l.high_coordinates],
                &mut l.scratch,
            ))
        },
        "backward" => |w, l| {
            done(maps::backward(
                w,
                l.n,
                l.outer,
                &l.triangles,
                &l.coordinates,
                &mut l.weights,
                &mut l.scratch,
            ))
        },
        "repair" => |w, l| {
            let made = repair::repair(
                w,
                l.n,
                l.outer,
                &l.triangles,
                &mut l.weights,
                &mut l.coordinates,
                &mut l.scratch,
            );
            made.map_or_else(|refusal| refused(refusal.number), |raises| raises as u64)
        },
        "snapping" => |_, l| done(snap::snap(l.n, 0, &l.shares, &mut l.coordinates)),
        "job" => |w, l| {
            text::run(w, &l.text, &mut l.listing)
                .map_or_else(|refusal| refused(refusal.number), |length| length as u64)
        },
        _ => unreachable!("a call that there is"),
    }
}
