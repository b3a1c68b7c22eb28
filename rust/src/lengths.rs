//! Limits, bytes of stack, and the exact lengths of the slices for `n` vertices.

/// Fewest vertices of a mesh.
pub const LEAST_VERTICES: usize = 3;

/// Most vertices of a mesh.
pub const MOST_VERTICES: usize = 4096;

/// Most vertices of a mesh in a job text.
pub const MOST_JOB_VERTICES: usize = 256;

/// Most bytes of a job text. A buffer of as many bytes has room for every listing.
pub const JOB_BYTES: usize = 16_384;

/// The largest sum of the absolute values of all weights, and the largest absolute value of a
/// coordinate.
pub const LIMIT: i64 = 1_073_741_823;

/// Most bytes of stack that a call on slices uses.
pub const STACK: usize = 2048;

/// Most bytes of stack that [`job`](crate::job) uses.
pub const JOB_STACK: usize = 36_864;

/// Length of the triangles: `3(2n - 4)` vertex numbers; 0 for `n` below 3. Saturates.
#[inline]
pub const fn triangles_len(n: usize) -> usize {
    n.saturating_sub(2).saturating_mul(6)
}

/// Length of the labels: `3(2n - 5)`; 0 for `n` below 3. Saturates.
#[inline]
pub const fn labels_len(n: usize) -> usize {
    weights_len(n).saturating_mul(3)
}

/// Length of the weights: `2n - 5`, one for each inner triangle; 0 for `n` below 3. Saturates.
#[inline]
pub const fn weights_len(n: usize) -> usize {
    match n.checked_sub(LEAST_VERTICES) {
        Some(more) => more.saturating_mul(2).saturating_add(1),
        None => 0,
    }
}

/// Length of the coordinates: `3n`, b0, b1 and b2 of each vertex. Saturates.
#[inline]
pub const fn coordinates_len(n: usize) -> usize {
    n.saturating_mul(3)
}

/// Length of the scratch: `10n`. Saturates.
#[inline]
pub const fn scratch_len(n: usize) -> usize {
    n.saturating_mul(10)
}

/// Length of the drawn points: `2n`, x and y of each. Saturates.
#[inline]
pub const fn points_len(n: usize) -> usize {
    n.saturating_mul(2)
}
