//! The functions of the static library, as a C header would declare them.

extern "C" {
    pub fn layers_spline_area_limit(level10: bool, area: u64) -> u64;

    pub fn layers_inv_adjusted_quant(adjustment: i32) -> f32;

    pub fn layers_trace(
        start_x: f32,
        start_y: f32,
        deltas: *const i32,
        deltas_len: usize,
        limit: u64,
        x: *mut i32,
        y: *mut i32,
        manhattan: *mut u64,
    ) -> u32;

    pub fn layers_dequantize(
        start_x: f32,
        start_y: f32,
        deltas: *const i32,
        deltas_len: usize,
        coefficients: *const [i32; 128],
        adjustment: i32,
        y_to_x: f32,
        y_to_b: f32,
        limit: u64,
        x: *mut [f32; 32],
        y: *mut [f32; 32],
        b: *mut [f32; 32],
        sigma: *mut [f32; 32],
        estimate: *mut u64,
        coincide: *mut bool,
    ) -> u32;

    pub fn layers_judge(
        counts: *const u32,
        counts_len: usize,
        starts: *const f32,
        starts_len: usize,
        deltas: *const i32,
        deltas_len: usize,
        coefficients: *const i32,
        coefficients_len: usize,
        adjustment: i32,
        y_to_x: f32,
        y_to_b: f32,
        limit: u64,
        place: *mut usize,
        estimate: *mut u64,
    ) -> u32;

    pub fn layers_curve(
        start_x: f32,
        start_y: f32,
        deltas: *const i32,
        deltas_len: usize,
        path: *mut f32,
        path_len: usize,
        count: *mut usize,
    ) -> u32;

    pub fn layers_walk(
        path: *const f32,
        path_len: usize,
        walk: *mut f32,
        walk_len: usize,
        count: *mut usize,
    ) -> u32;

    pub fn layers_length_of(n: usize, last: f32, length: *mut f32) -> u32;

    pub fn layers_sums_at(
        x: *const [f32; 32],
        y: *const [f32; 32],
        b: *const [f32; 32],
        sigma: *const [f32; 32],
        t: f32,
        sums: *mut [f32; 4],
    );

    pub fn layers_add_segment(
        center_x: f32,
        center_y: f32,
        intensity: f32,
        c0: f32,
        c1: f32,
        c2: f32,
        sigma: f32,
        high_precision: bool,
        segment: *mut [f32; 8],
    ) -> bool;

    pub fn layers_add_segments_from_points(
        x: *const [f32; 32],
        y: *const [f32; 32],
        b: *const [f32; 32],
        sigma: *const [f32; 32],
        walk: *const f32,
        walk_len: usize,
        walk_length: f32,
        high_precision: bool,
        segments: *mut f32,
        segments_len: usize,
        count: *mut usize,
    ) -> u32;

    pub fn layers_rows(segment: *const [f32; 8], ends: *mut [u32; 2]);

    pub fn layers_columns(segment: *const [f32; 8], ends: *mut [u32; 2]);
}
