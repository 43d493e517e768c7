//! The measured calls of an archive that is loaded and not linked, as a port.

use oracle::case::{Call, Candidates, PickCase, Quantize, ToMode};
use oracle::port::{BracketRooms, Lists, Port, Read, Rooms};

use crate::loaded::Loaded;

#[rustfmt::skip]
mod c {
    //! The functions' types, as in the C header; a slice is a pointer and a length.

    type Bytes = *const u8;
    type Floats = *const f32;

    pub type ToOklab = unsafe extern "C" fn(u8, u8, u8, *mut f32, *mut f32, *mut f32);
    pub type Nearest = unsafe extern "C" fn(
        Bytes, usize, Bytes, usize, Floats, usize, u8, u8, u8, *mut u32,
    ) -> u32;
    pub type NearestTwo = unsafe extern "C" fn(
        Bytes, usize, Bytes, usize, Floats, usize, u8, u8, u8, u64, *mut u32, *mut u32,
    ) -> u32;
    pub type OrderedBracket = unsafe extern "C" fn(
        Bytes, usize, Bytes, usize, Floats, usize, u8, u8, u8, u64, *mut u8, usize, *mut u8, usize, *mut f32,
        *mut u32, *mut u32,
    ) -> u32;
    pub type BracketWidth = unsafe extern "C" fn(u32, u64, *mut u64) -> u32;
    pub type CandidateColorsIn = unsafe extern "C" fn(
        u32, u32, u32, u32, Bytes, usize, Bytes, usize, Bytes, usize, Bytes, usize,
        *mut u8, usize, *mut f32, usize, *mut u32,
    ) -> u32;
    pub type QuantizePixels = unsafe extern "C" fn(
        u32, u32, u32, u32, u32, Bytes, usize, Bytes, usize, Bytes, usize, Bytes, usize, Bytes, usize,
        *mut u8, usize, *mut u8, usize, *mut i16, usize,
    ) -> u32;
    pub type DitherToMode = unsafe extern "C" fn(
        u32, u32, u32, u32, u32, u32, u32, u32, u32, u32, u32, u8, u8, u8, u8,
        Bytes, usize, Bytes, usize, Bytes, usize, Bytes, usize,
        *mut u8, usize, *mut f32, usize, *mut u8, usize, *mut i16, usize, *mut u32, *mut u32,
    ) -> u32;

    pub mod by_alpha {
        //! The calls on pictures before request 5: none names a reduction, and none is
        //! lent opaque pixels.

        use super::Bytes;

        pub type CandidateColorsIn = unsafe extern "C" fn(
            u32, u32, u32, Bytes, usize, Bytes, usize, Bytes, usize, *mut u8, usize, *mut f32, usize, *mut u32,
        ) -> u32;
        pub type QuantizePixels = unsafe extern "C" fn(
            u32, u32, u32, u32, Bytes, usize, Bytes, usize, Bytes, usize, Bytes, usize,
            *mut u8, usize, *mut u8, usize, *mut i16, usize,
        ) -> u32;
        pub type DitherToMode = unsafe extern "C" fn(
            u32, u32, u32, u32, u32, u32, u32, u32, u32, u32, u8, u8, u8, u8,
            Bytes, usize, Bytes, usize, Bytes, usize,
            *mut u8, usize, *mut f32, usize, *mut u8, usize, *mut i16, usize, *mut u32, *mut u32,
        ) -> u32;
    }
}

/// The calls on pictures, as they are, or as they were before request 5: these are put
/// pictures that reduce by alpha alone.
enum Pictures {
    Reducing {
        candidate_colors_in: c::CandidateColorsIn,
        quantize_pixels: c::QuantizePixels,
        dither_to_mode: c::DitherToMode,
    },
    ByAlpha {
        candidate_colors_in: c::by_alpha::CandidateColorsIn,
        quantize_pixels: c::by_alpha::QuantizePixels,
        dither_to_mode: c::by_alpha::DitherToMode,
    },
}

impl Pictures {
    /// # Safety
    ///
    /// The library's functions are those of the C header, now or before request 5.
    unsafe fn of(loaded: &Loaded) -> Result<Pictures, String> {
        let [candidates, quantize, to_mode] =
            ["badge_candidate_colors_in", "badge_quantize_pixels", "badge_dither_to_mode"];
        // SAFETY: as the caller says. A library accepts shift 6 as a width's since
        // request 5, with which the calls on pictures took their types of now.
        unsafe {
            let bracket_width: c::BracketWidth = loaded.function("badge_bracket_width")?;
            if bracket_width(6, 16, &mut 0) == 0 {
                return Ok(Pictures::Reducing {
                    candidate_colors_in: loaded.function(candidates)?,
                    quantize_pixels: loaded.function(quantize)?,
                    dither_to_mode: loaded.function(to_mode)?,
                });
            }
            Ok(Pictures::ByAlpha {
                candidate_colors_in: loaded.function(candidates)?,
                quantize_pixels: loaded.function(quantize)?,
                dither_to_mode: loaded.function(to_mode)?,
            })
        }
    }
}

/// The calls that are measured.
pub struct Library {
    to_oklab: c::ToOklab,
    nearest: c::Nearest,
    nearest_two: c::NearestTwo,
    ordered_bracket: c::OrderedBracket,
    pictures: Pictures,
}

impl Library {
    pub fn of(loaded: &Loaded) -> Result<Library, String> {
        // SAFETY: the functions have these types by the C header. An archive of
        // before request 4 has a bracket without the last two pointers: C's ways
        // of calling leave arguments that are not asked for where they are. One of
        // before request 11 takes the cells for floats: pointers go over alike, and
        // the cells that are lent have room for as many of these (`calls`).
        unsafe {
            Ok(Library {
                to_oklab: loaded.function("badge_to_oklab")?,
                nearest: loaded.function("badge_nearest")?,
                nearest_two: loaded.function("badge_nearest_two")?,
                ordered_bracket: loaded.function("badge_ordered_bracket")?,
                pictures: Pictures::of(loaded)?,
            })
        }
    }

    /// Whether its calls on pictures name their reduction, so that there are others than
    /// by alpha.
    pub fn names_reductions(&self) -> bool {
        matches!(self.pictures, Pictures::Reducing { .. })
    }
}

/// A call that is not measured is never put to it.
fn unmeasured(call: Call) -> ! {
    unreachable!("{} is not measured", call.name())
}

/// Calls a C function: with the arguments in the first brackets, which are ready,
/// and then with the others. Of a slice, which stands in square brackets, pointer
/// and length go over.
macro_rules! put {
    ($function:expr, ($($ready:expr),*)) => {
        ($function)($($ready),*)
    };
    ($function:expr, ($($ready:expr),*) [mut $slice:expr] $($rest:tt)*) => {
        put!($function, ($($ready,)* $slice.as_mut_ptr(), $slice.len()) $($rest)*)
    };
    ($function:expr, ($($ready:expr),*) [$slice:expr] $($rest:tt)*) => {
        put!($function, ($($ready,)* $slice.as_ptr(), $slice.len()) $($rest)*)
    };
    ($function:expr, ($($ready:expr),*) ($($value:expr),*) $($rest:tt)*) => {
        put!($function, ($($ready,)* $($value),*) $($rest)*)
    };
}

// SAFETY, for every call below: pointers and lengths are those of live slices and
// references that do not overlap.
#[rustfmt::skip]
impl Port for Library {
    fn to_oklab(&self, [r, g, b]: [u8; 3], [lightness, out_a, out_b]: [&mut f32; 3]) {
        unsafe { (self.to_oklab)(r, g, b, lightness, out_a, out_b) }
    }

    fn nearest(&self, l: Lists, [r, g, b]: [u8; 3], position: &mut u32) -> u32 {
        unsafe { put!(self.nearest, () [l.reduced] [l.normalized] [l.oklab] (r, g, b, position)) }
    }

    fn nearest_two(&self, l: Lists, [r, g, b]: [u8; 3], width: u64, first: &mut u32, second: &mut u32) -> u32 {
        unsafe { put!(self.nearest_two, () [l.reduced] [l.normalized] [l.oklab] (r, g, b, width, first, second)) }
    }

    fn ordered_bracket(&self, l: Lists, [r, g, b]: [u8; 3], width: u64, rooms: BracketRooms) -> u32 {
        let BracketRooms { dark, light, ratio, dark_position, light_position } = rooms;
        unsafe {
            put!(
                self.ordered_bracket,
                () [l.reduced] [l.normalized] [l.oklab] (r, g, b, width) [mut dark] [mut light]
                (ratio, dark_position, light_position)
            )
        }
    }

    fn candidate_colors_in(
        &self, case: &Candidates, read: Read, places: &mut [u8], oklab: &mut [f32], count: &mut u32,
    ) -> u32 {
        let Candidates { shift, reducing, width, height, .. } = *case;
        unsafe {
            match &self.pictures {
                Pictures::Reducing { candidate_colors_in, .. } => put!(
                    candidate_colors_in,
                    (shift, reducing, width, height) [read.reduction] [read.scale] [read.pixels] [read.opaque]
                    [mut places] [mut oklab] (count)
                ),
                Pictures::ByAlpha { candidate_colors_in, .. } => put!(
                    candidate_colors_in,
                    (shift, width, height) [read.reduction] [read.scale] [read.pixels]
                    [mut places] [mut oklab] (count)
                ),
            }
        }
    }

    fn quantize_pixels(
        &self, case: &Quantize, read: Read, indices: &mut [u8], out: &mut [u8], cells: &mut [i16],
    ) -> u32 {
        let Quantize { shift, reducing, kind, width, height, .. } = *case;
        unsafe {
            match &self.pictures {
                Pictures::Reducing { quantize_pixels, .. } => put!(
                    quantize_pixels,
                    (shift, reducing, kind, width, height)
                    [read.reduction] [read.scale] [read.palette] [read.pixels] [read.opaque]
                    [mut indices] [mut out] [mut cells]
                ),
                Pictures::ByAlpha { quantize_pixels, .. } => put!(
                    quantize_pixels,
                    (shift, kind, width, height)
                    [read.reduction] [read.scale] [read.palette] [read.pixels] [mut indices] [mut out] [mut cells]
                ),
            }
        }
    }

    fn dither_to_mode(&self, case: &ToMode, read: Read, rooms: Rooms, count: &mut u32, tile: &mut u32) -> u32 {
        let ToMode { shift, reducing, kind, width, height, limit, has_zero, .. } = *case;
        let ([left, top], [tile_width, tile_height], [r, g, b, a]) = (case.origin, case.tile, case.zero);
        unsafe {
            match &self.pictures {
                Pictures::Reducing { dither_to_mode, .. } => put!(
                    dither_to_mode,
                    (shift, reducing, kind, width, height, left, top, tile_width, tile_height, limit)
                    (has_zero, r, g, b, a)
                    [read.reduction] [read.scale] [read.pixels] [read.opaque]
                    [mut rooms.places] [mut rooms.oklab] [mut rooms.out] [mut rooms.cells] (count, tile)
                ),
                Pictures::ByAlpha { dither_to_mode, .. } => put!(
                    dither_to_mode,
                    (shift, kind, width, height, left, top, tile_width, tile_height, limit)
                    (has_zero, r, g, b, a)
                    [read.reduction] [read.scale] [read.pixels]
                    [mut rooms.places] [mut rooms.oklab] [mut rooms.out] [mut rooms.cells] (count, tile)
                ),
            }
        }
    }

    fn oklab_sqdist(&self, _: [f32; 6], _: &mut f32) -> u32 { unmeasured(Call::OklabSqdist) }
    fn ordered_threshold(&self, _: u32, _: u32, _: u32, _: &mut f32) -> u32 { unmeasured(Call::OrderedThreshold) }
    fn bracket_width(&self, _: u32, _: u64, _: &mut u64) -> u32 { unmeasured(Call::BracketWidth) }
    fn lerp(&self, _: [[u8; 3]; 3], _: u32) -> f32 { unmeasured(Call::Lerp) }
    fn pick(&self, _: &PickCase, _: &[u8], _: &[u8], _: &mut [u8]) -> u32 { unmeasured(Call::Pick) }
}
