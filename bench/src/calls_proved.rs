//! The proved calls by name.

use crate::{refused, Call};
use packmap::Refusal;

/// 0, or what stands for the refusal.
fn done(call: Result<(), Refusal>) -> u64 {
    call.map_or_else(|refusal| refused(refusal.number()), |()| 0)
}

pub fn call(name: &str) -> Call {
    match name {
        "check" => |_, l| done(packmap::check(l.n, l.outer, &l.triangles, &mut l.scratch)),
        "labels" => |_, l| {
            done(packmap::labels(
                l.n,
                l.outer,
                &l.triangles,
                &mut l.labels,
                &mut l.scratch,
            ))
        },
        "forward" => |_, l| {
            done(packmap::forward(
                l.n,
                l.outer,
                &l.triangles,
                &l.weights,
                &mut l.coordinates,
                &mut l.scratch,
            ))
        },
        "range" => |_, l| {
            done(packmap::forward_range(
                l.n,
                l.outer,
                &l.triangles,
                &l.weights,
                &l.highs,
                &mut l.coordinates,
                &mut l.high_coordinates,
                &mut l.scratch,
            ))
        },
        "backward" => |_, l| {
            done(packmap::backward(
                l.n,
                l.outer,
                &l.triangles,
                &l.coordinates,
                &mut l.weights,
                &mut l.scratch,
            ))
        },
        "repair" => |_, l| {
            packmap::repair(
                l.n,
                l.outer,
                &l.triangles,
                &mut l.weights,
                &mut l.coordinates,
                &mut l.scratch,
            )
            .unwrap_or_else(|refusal| refused(refusal.number()))
        },
        "snapping" => |_, l| done(packmap::snap_points(l.n, &l.shares, 0, &mut l.coordinates)),
        "job" => |_, l| {
            packmap::job(&l.text, &mut l.listing)
                .map_or_else(|refusal| refused(refusal.number()), |length| length as u64)
        },
        _ => unreachable!("a call that there is"),
    }
}
