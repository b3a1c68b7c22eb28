//! The calls as host/packmap.h declares them. A slice is a pointer and a number of items.

extern "C" {
    pub fn packmap_mesh_check(
        n: usize,
        outer: usize,
        triangles: *const u16,
        triangles_len: usize,
        scratch: *mut i64,
        scratch_len: usize,
        carried: *mut u64,
    ) -> u64;

    pub fn packmap_labels(
        n: usize,
        outer: usize,
        triangles: *const u16,
        triangles_len: usize,
        labels: *mut u8,
        labels_len: usize,
        scratch: *mut i64,
        scratch_len: usize,
        carried: *mut u64,
    ) -> u64;

    pub fn packmap_forward(
        n: usize,
        outer: usize,
        triangles: *const u16,
        triangles_len: usize,
        weights: *const i64,
        weights_len: usize,
        coordinates: *mut i64,
        coordinates_len: usize,
        scratch: *mut i64,
        scratch_len: usize,
        carried: *mut u64,
    ) -> u64;

    pub fn packmap_forward_range(
        n: usize,
        outer: usize,
        triangles: *const u16,
        triangles_len: usize,
        lows: *const i64,
        lows_len: usize,
        highs: *const i64,
        highs_len: usize,
        low_coordinates: *mut i64,
        low_coordinates_len: usize,
        high_coordinates: *mut i64,
        high_coordinates_len: usize,
        scratch: *mut i64,
        scratch_len: usize,
        carried: *mut u64,
    ) -> u64;

    pub fn packmap_backward(
        n: usize,
        outer: usize,
        triangles: *const u16,
        triangles_len: usize,
        coordinates: *const i64,
        coordinates_len: usize,
        weights: *mut i64,
        weights_len: usize,
        scratch: *mut i64,
        scratch_len: usize,
        carried: *mut u64,
    ) -> u64;

    pub fn packmap_repair(
        n: usize,
        outer: usize,
        triangles: *const u16,
        triangles_len: usize,
        weights: *mut i64,
        weights_len: usize,
        coordinates: *mut i64,
        coordinates_len: usize,
        scratch: *mut i64,
        scratch_len: usize,
        carried: *mut u64,
    ) -> u64;

    pub fn packmap_snap_points(
        n: usize,
        shares: *const f64,
        shares_len: usize,
        scale: u32,
        coordinates: *mut i64,
        coordinates_len: usize,
        outside: *mut f64,
    ) -> u64;

    pub fn packmap_job(
        text: *const u8,
        text_len: usize,
        listing: *mut u8,
        listing_len: usize,
    ) -> u64;
}
