//! The port as a linked archive, through its C interface. Calls that the
//! archive lacks are left out when this is built; `has` says which are there. An
//! archive of before document 02's fifth request has calls on pictures that take
//! other arguments under the same names: they count as lacking.

use std::cell::Cell;

use crate::case::{Call, Candidates, PickCase, Quantize, ToMode};
use crate::port::{BracketRooms, Lists, Port, Read, Rooms};

#[rustfmt::skip]
#[allow(dead_code)]
mod c {
    //! Declarations as in the C header; a slice is a pointer and a length.

    type Bytes = *const u8;
    type Floats = *const f32;

    #[allow(improper_ctypes)]
    unsafe extern "C" {
        #[cfg(has_badge_to_oklab)]
        pub fn badge_to_oklab(r: u8, g: u8, b: u8, lightness: *mut f32, out_a: *mut f32, out_b: *mut f32);
        #[cfg(has_badge_oklab_sqdist)]
        pub fn badge_oklab_sqdist(
            l1: f32, a1: f32, b1: f32, l2: f32, a2: f32, b2: f32, distance: *mut f32,
        ) -> u32;
        #[cfg(has_badge_ordered_threshold)]
        pub fn badge_ordered_threshold(kind: u32, x: u32, y: u32, threshold: *mut f32) -> u32;
        #[cfg(has_badge_bracket_width)]
        pub fn badge_bracket_width(shift: u32, max: u64, width: *mut u64) -> u32;
        #[cfg(has_badge_lerp)]
        pub fn badge_lerp(
            r1: u8, g1: u8, b1: u8, r2: u8, g2: u8, b2: u8, r: u8, g: u8, b: u8, clamp: u32,
        ) -> f32;
        #[cfg(has_badge_nearest)]
        pub fn badge_nearest(
            reduced: Bytes, n1: usize, normalized: Bytes, n2: usize, oklab: Floats, n3: usize,
            r: u8, g: u8, b: u8, position: *mut u32,
        ) -> u32;
        #[cfg(has_badge_nearest_two)]
        pub fn badge_nearest_two(
            reduced: Bytes, n1: usize, normalized: Bytes, n2: usize, oklab: Floats, n3: usize,
            r: u8, g: u8, b: u8, width: u64, first: *mut u32, second: *mut u32,
        ) -> u32;
        #[cfg(has_badge_ordered_bracket)]
        pub fn badge_ordered_bracket(
            reduced: Bytes, n1: usize, normalized: Bytes, n2: usize, oklab: Floats, n3: usize,
            r: u8, g: u8, b: u8, width: u64,
            dark: *mut u8, n4: usize, light: *mut u8, n5: usize, ratio: *mut f32,
            dark_position: *mut u32, light_position: *mut u32,
        ) -> u32;
        #[cfg(has_badge_pick)]
        pub fn badge_pick(
            dark: Bytes, n1: usize, light: Bytes, n2: usize, ratio: f32, kind: u32, x: u32, y: u32,
            chosen: *mut u8, n3: usize,
        ) -> u32;
        #[cfg(has_badge_candidate_colors_in)]
        pub fn badge_candidate_colors_in(
            shift: u32, reducing: u32, width: u32, height: u32,
            reduction: Bytes, n1: usize, scale: Bytes, n2: usize, pixels: Bytes, n3: usize, opaque: Bytes, n4: usize,
            places: *mut u8, n5: usize, oklab: *mut f32, n6: usize, count: *mut u32,
        ) -> u32;
        #[cfg(has_badge_quantize_pixels)]
        pub fn badge_quantize_pixels(
            shift: u32, reducing: u32, kind: u32, width: u32, height: u32,
            reduction: Bytes, n1: usize, scale: Bytes, n2: usize,
            palette: Bytes, n3: usize, pixels: Bytes, n4: usize, opaque: Bytes, n5: usize,
            indices: *mut u8, n6: usize, out: *mut u8, n7: usize, cells: *mut i16, n8: usize,
        ) -> u32;
        #[cfg(has_badge_dither_to_mode)]
        pub fn badge_dither_to_mode(
            shift: u32, reducing: u32, kind: u32, width: u32, height: u32,
            origin_x: u32, origin_y: u32, tile_width: u32, tile_height: u32, limit: u32,
            has_zero: u32, zero_r: u8, zero_g: u8, zero_b: u8, zero_a: u8,
            reduction: Bytes, n1: usize, scale: Bytes, n2: usize, pixels: Bytes, n3: usize, opaque: Bytes, n4: usize,
            places: *mut u8, n5: usize, oklab: *mut f32, n6: usize,
            out: *mut u8, n7: usize, cells: *mut i16, n8: usize,
            count: *mut u32, tile: *mut u32,
        ) -> u32;
    }
}

/// The linked archive.
#[derive(Default)]
pub struct Archive {
    null: Cell<bool>,
}

/// A call that the archive lacks is never put to it.
#[allow(dead_code)]
fn absent() -> ! {
    unreachable!("the archive lacks this call")
}

#[allow(dead_code)]
impl Archive {
    fn ptr<T>(&self, slice: &[T]) -> *const T {
        if slice.is_empty() && self.null.get() { std::ptr::null() } else { slice.as_ptr() }
    }

    fn ptr_mut<T>(&self, slice: &mut [T]) -> *mut T {
        if slice.is_empty() && self.null.get() { std::ptr::null_mut() } else { slice.as_mut_ptr() }
    }

    /// Whether the calls on pictures name their reduction. The same request gave shift 6
    /// a width.
    fn names_reductions(&self) -> bool {
        cfg!(has_badge_bracket_width) && self.bracket_width(6, 16, &mut 0) == 0
    }
}

#[rustfmt::skip]
#[allow(unused_variables)]
impl Port for Archive {
    fn has(&self, call: Call) -> bool {
        match call {
            Call::ToOklab => cfg!(has_badge_to_oklab),
            Call::OklabSqdist => cfg!(has_badge_oklab_sqdist),
            Call::OrderedThreshold => cfg!(has_badge_ordered_threshold),
            Call::BracketWidth => cfg!(has_badge_bracket_width),
            Call::Lerp => cfg!(has_badge_lerp),
            Call::Nearest => cfg!(has_badge_nearest),
            Call::NearestTwo => cfg!(has_badge_nearest_two),
            Call::OrderedBracket => cfg!(has_badge_ordered_bracket),
            Call::Pick => cfg!(has_badge_pick),
            Call::CandidateColorsIn => cfg!(has_badge_candidate_colors_in) && self.names_reductions(),
            Call::QuantizePixels => cfg!(has_badge_quantize_pixels) && self.names_reductions(),
            Call::DitherToMode => cfg!(has_badge_dither_to_mode) && self.names_reductions(),
        }
    }

    fn null_for_empty(&self, null: bool) {
        self.null.set(null);
    }

    // SAFETY, for every call below: pointers and lengths are those of live
    // slices and references that do not overlap, save two that are only read; a
    // null pointer has length 0.

    #[inline]
    fn to_oklab(&self, [r, g, b]: [u8; 3], [lightness, out_a, out_b]: [&mut f32; 3]) {
        #[cfg(has_badge_to_oklab)]
        return unsafe { c::badge_to_oklab(r, g, b, lightness, out_a, out_b) };
        #[cfg(not(has_badge_to_oklab))]
        absent()
    }

    fn oklab_sqdist(&self, [l1, a1, b1, l2, a2, b2]: [f32; 6], distance: &mut f32) -> u32 {
        #[cfg(has_badge_oklab_sqdist)]
        return unsafe { c::badge_oklab_sqdist(l1, a1, b1, l2, a2, b2, distance) };
        #[cfg(not(has_badge_oklab_sqdist))]
        absent()
    }

    fn ordered_threshold(&self, kind: u32, x: u32, y: u32, threshold: &mut f32) -> u32 {
        #[cfg(has_badge_ordered_threshold)]
        return unsafe { c::badge_ordered_threshold(kind, x, y, threshold) };
        #[cfg(not(has_badge_ordered_threshold))]
        absent()
    }

    fn bracket_width(&self, shift: u32, max: u64, width: &mut u64) -> u32 {
        #[cfg(has_badge_bracket_width)]
        return unsafe { c::badge_bracket_width(shift, max, width) };
        #[cfg(not(has_badge_bracket_width))]
        absent()
    }

    fn lerp(&self, [[r1, g1, b1], [r2, g2, b2], [r, g, b]]: [[u8; 3]; 3], clamp: u32) -> f32 {
        #[cfg(has_badge_lerp)]
        return unsafe { c::badge_lerp(r1, g1, b1, r2, g2, b2, r, g, b, clamp) };
        #[cfg(not(has_badge_lerp))]
        absent()
    }

    fn nearest(&self, l: Lists, [r, g, b]: [u8; 3], position: &mut u32) -> u32 {
        #[cfg(has_badge_nearest)]
        return unsafe {
            c::badge_nearest(
                self.ptr(l.reduced), l.reduced.len(), self.ptr(l.normalized), l.normalized.len(),
                self.ptr(l.oklab), l.oklab.len(), r, g, b, position,
            )
        };
        #[cfg(not(has_badge_nearest))]
        absent()
    }

    fn nearest_two(&self, l: Lists, [r, g, b]: [u8; 3], width: u64, first: &mut u32, second: &mut u32) -> u32 {
        #[cfg(has_badge_nearest_two)]
        return unsafe {
            c::badge_nearest_two(
                self.ptr(l.reduced), l.reduced.len(), self.ptr(l.normalized), l.normalized.len(),
                self.ptr(l.oklab), l.oklab.len(), r, g, b, width, first, second,
            )
        };
        #[cfg(not(has_badge_nearest_two))]
        absent()
    }

    fn ordered_bracket(&self, l: Lists, [r, g, b]: [u8; 3], width: u64, rooms: BracketRooms) -> u32 {
        #[cfg(has_badge_ordered_bracket)]
        return unsafe {
            c::badge_ordered_bracket(
                self.ptr(l.reduced), l.reduced.len(), self.ptr(l.normalized), l.normalized.len(),
                self.ptr(l.oklab), l.oklab.len(), r, g, b, width,
                self.ptr_mut(rooms.dark), rooms.dark.len(), self.ptr_mut(rooms.light), rooms.light.len(),
                rooms.ratio, rooms.dark_position, rooms.light_position,
            )
        };
        #[cfg(not(has_badge_ordered_bracket))]
        absent()
    }

    fn pick(&self, case: &PickCase, dark: &[u8], light: &[u8], chosen: &mut [u8]) -> u32 {
        #[cfg(has_badge_pick)]
        return unsafe {
            c::badge_pick(
                self.ptr(dark), dark.len(), self.ptr(light), light.len(), case.ratio, case.kind, case.x, case.y,
                self.ptr_mut(chosen), chosen.len(),
            )
        };
        #[cfg(not(has_badge_pick))]
        absent()
    }

    fn candidate_colors_in(
        &self,
        case: &Candidates,
        read: Read,
        places: &mut [u8],
        oklab: &mut [f32],
        count: &mut u32,
    ) -> u32 {
        #[cfg(has_badge_candidate_colors_in)]
        return unsafe {
            c::badge_candidate_colors_in(
                case.shift, case.reducing, case.width, case.height,
                self.ptr(read.reduction), read.reduction.len(), self.ptr(read.scale), read.scale.len(),
                self.ptr(read.pixels), read.pixels.len(), self.ptr(read.opaque), read.opaque.len(),
                self.ptr_mut(places), places.len(), self.ptr_mut(oklab), oklab.len(), count,
            )
        };
        #[cfg(not(has_badge_candidate_colors_in))]
        absent()
    }

    fn quantize_pixels(
        &self,
        case: &Quantize,
        read: Read,
        indices: &mut [u8],
        out: &mut [u8],
        cells: &mut [i16],
    ) -> u32 {
        #[cfg(has_badge_quantize_pixels)]
        return unsafe {
            c::badge_quantize_pixels(
                case.shift, case.reducing, case.kind, case.width, case.height,
                self.ptr(read.reduction), read.reduction.len(), self.ptr(read.scale), read.scale.len(),
                self.ptr(read.palette), read.palette.len(), self.ptr(read.pixels), read.pixels.len(),
                self.ptr(read.opaque), read.opaque.len(),
                self.ptr_mut(indices), indices.len(), self.ptr_mut(out), out.len(),
                self.ptr_mut(cells), cells.len(),
            )
        };
        #[cfg(not(has_badge_quantize_pixels))]
        absent()
    }

    fn dither_to_mode(&self, case: &ToMode, read: Read, rooms: Rooms, count: &mut u32, tile: &mut u32) -> u32 {
        #[cfg(has_badge_dither_to_mode)]
        return unsafe {
            let [zero_r, zero_g, zero_b, zero_a] = case.zero;
            c::badge_dither_to_mode(
                case.shift, case.reducing, case.kind, case.width, case.height,
                case.origin[0], case.origin[1], case.tile[0], case.tile[1], case.limit,
                case.has_zero, zero_r, zero_g, zero_b, zero_a,
                self.ptr(read.reduction), read.reduction.len(), self.ptr(read.scale), read.scale.len(),
                self.ptr(read.pixels), read.pixels.len(), self.ptr(read.opaque), read.opaque.len(),
                self.ptr_mut(rooms.places), rooms.places.len(), self.ptr_mut(rooms.oklab), rooms.oklab.len(),
                self.ptr_mut(rooms.out), rooms.out.len(), self.ptr_mut(rooms.cells), rooms.cells.len(),
                count, tile,
            )
        };
        #[cfg(not(has_badge_dither_to_mode))]
        absent()
    }
}
