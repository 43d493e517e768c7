//! The C interface as include/badge_dither.h declares it. A slice is a pointer
//! and a length in elements.

type Bytes = *const u8;
type Floats = *const f32;

#[rustfmt::skip]
extern "C" {
    pub fn badge_to_oklab(r: u8, g: u8, b: u8, lightness: *mut f32, out_a: *mut f32, out_b: *mut f32);

    pub fn badge_oklab_sqdist(l1: f32, a1: f32, b1: f32, l2: f32, a2: f32, b2: f32, distance: *mut f32) -> u32;

    pub fn badge_ordered_threshold(kind: u32, x: u32, y: u32, threshold: *mut f32) -> u32;

    pub fn badge_bracket_width(shift: u32, max: u64, width: *mut u64) -> u32;

    pub fn badge_lerp(
        r1: u8, g1: u8, b1: u8, r2: u8, g2: u8, b2: u8, r: u8, g: u8, b: u8, clamp: u32,
    ) -> f32;

    pub fn badge_nearest(
        reduced: Bytes, reduced_len: usize, normalized: Bytes, normalized_len: usize, oklab: Floats, oklab_len: usize,
        r: u8, g: u8, b: u8, position: *mut u32,
    ) -> u32;

    pub fn badge_nearest_two(
        reduced: Bytes, reduced_len: usize, normalized: Bytes, normalized_len: usize, oklab: Floats, oklab_len: usize,
        r: u8, g: u8, b: u8, width: u64, first: *mut u32, second: *mut u32,
    ) -> u32;

    pub fn badge_ordered_bracket(
        reduced: Bytes, reduced_len: usize, normalized: Bytes, normalized_len: usize, oklab: Floats, oklab_len: usize,
        r: u8, g: u8, b: u8, width: u64,
        dark: *mut u8, dark_len: usize, light: *mut u8, light_len: usize, ratio: *mut f32,
        dark_position: *mut u32, light_position: *mut u32,
    ) -> u32;

    pub fn badge_pick(
        dark: Bytes, dark_len: usize, light: Bytes, light_len: usize, ratio: f32, kind: u32, x: u32, y: u32,
        chosen: *mut u8, chosen_len: usize,
    ) -> u32;

    pub fn badge_candidate_colors_in(
        shift: u32, reducing: u32, width: u32, height: u32,
        reduction: Bytes, reduction_len: usize, scale: Bytes, scale_len: usize,
        pixels: Bytes, pixels_len: usize, opaque: Bytes, opaque_len: usize,
        places: *mut u8, places_len: usize, oklab: *mut f32, oklab_len: usize, count: *mut u32,
    ) -> u32;

    pub fn badge_quantize_pixels(
        shift: u32, reducing: u32, kind: u32, width: u32, height: u32,
        reduction: Bytes, reduction_len: usize, scale: Bytes, scale_len: usize,
        palette: Bytes, palette_len: usize, pixels: Bytes, pixels_len: usize, opaque: Bytes, opaque_len: usize,
        indices: *mut u8, indices_len: usize, out: *mut u8, out_len: usize, cells: *mut i16, cells_len: usize,
    ) -> u32;

    pub fn badge_dither_to_mode(
        shift: u32, reducing: u32, kind: u32, width: u32, height: u32,
        origin_x: u32, origin_y: u32, tile_width: u32, tile_height: u32, limit: u32,
        has_zero: u32, zero_r: u8, zero_g: u8, zero_b: u8, zero_a: u8,
        reduction: Bytes, reduction_len: usize, scale: Bytes, scale_len: usize,
        pixels: Bytes, pixels_len: usize, opaque: Bytes, opaque_len: usize,
        places: *mut u8, places_len: usize, oklab: *mut f32, oklab_len: usize,
        out: *mut u8, out_len: usize, cells: *mut i16, cells_len: usize,
        count: *mut u32, tile: *mut u32,
    ) -> u32;

    pub fn badge_pam_size(file: Bytes, file_len: usize, width: *mut u32, height: *mut u32) -> u32;

    pub fn badge_read_pam(
        file: Bytes, file_len: usize, pixels: *mut u8, pixels_len: usize, width: *mut u32, height: *mut u32,
    ) -> u32;

    pub fn badge_pam_length(width: u32, height: u32, length: *mut u64) -> u32;

    pub fn badge_write_pam(
        width: u32, height: u32, pixels: Bytes, pixels_len: usize, file: *mut u8, file_len: usize,
    ) -> u32;
}
