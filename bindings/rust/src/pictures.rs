//! The calls on whole pictures.
//!
//! SAFETY, for every call below: pointers and lengths are those of live slices
//! and values. What the call writes is borrowed for it alone; slices that it
//! only reads may share memory, as nothing writes to them.

use crate::c;
use crate::{ReducedColor, Reducing, Refusal};

/// A picture, row by row, four bytes a pixel. Width and height are 0 to 4,096,
/// with at most 1,048,576 pixels.
#[derive(Clone, Copy, Debug)]
pub struct Picture<'a> {
    /// Pixels in a row.
    pub width: u32,
    /// Rows.
    pub height: u32,
    /// Four bytes a pixel.
    pub pixels: &'a [u8],
}

/// The two tables of 256 bytes that say how a mode reduces a channel, and how a
/// reduced one is scaled up again.
#[derive(Clone, Copy, Debug)]
pub struct Tables<'a> {
    /// The console's own value for each channel value.
    pub reduction: &'a [u8],
    /// The value from 0 to 255 for each of the console's own.
    pub scale: &'a [u8],
}

/// Room for 0 to 65,536 candidates.
#[derive(Debug)]
pub struct Rooms<'a> {
    /// Reduced colours, four bytes a place.
    pub places: &'a mut [u8],
    /// Oklab colours, three floats a place.
    pub oklab: &'a mut [f32],
}

/// Where a dithered picture goes.
#[derive(Debug)]
pub struct Output<'a> {
    /// Normalised pixels, four bytes each.
    pub out: &'a mut [u8],
    /// The error that was passed on to each pixel, in sixteenths: three cells
    /// a pixel (red, green, blue) for Atkinson and Floyd-Steinberg, and none
    /// for the other kinds. They may hold anything before the call; where it
    /// accepts, each holds -4,080 to 4,080, which is 255 either way.
    pub cells: &'a mut [i16],
}

/// How a picture is dithered to a mode.
#[derive(Clone, Copy, Debug, PartialEq, Eq)]
pub struct Settings<'a> {
    /// The shift of the mode: 3, 4, 5 or 6.
    pub shift: u32,
    /// How the mode reduces a pixel.
    pub reducing: Reducing<'a>,
    /// The kind of dithering, see [`kind`](crate::kind).
    pub kind: u32,
    /// Where in a larger picture this one begins, in columns and rows:
    /// patterns are laid over the larger one.
    pub origin: [u32; 2],
    /// Width and height of a tile, 1 to 4,096 each.
    pub tile: [u32; 2],
    /// How many colours a tile may have, 0 to 256.
    pub limit: u32,
    /// Pixels that reduce to this red, green and blue keep it and pass no error
    /// on.
    pub color_zero: Option<ReducedColor>,
}

/// Collects a picture's candidates: the different reduced colours of its
/// pixels that are not transparent, in ascending order. Answers how many they
/// are; they stand at the front of the rooms, and places after them are as
/// they were.
///
/// Refuses with 1 (shift and reduction), 2, 3 and 7.
#[rustfmt::skip]
pub fn candidate_colors_in(
    shift: u32,
    reducing: Reducing,
    picture: Picture,
    tables: Tables,
    rooms: Rooms,
) -> Result<usize, Refusal> {
    let (opaque, mut count) = (reducing.opaque(), 0);
    // SAFETY: as the head of this file says.
    let number = unsafe {
        c::badge_candidate_colors_in(
            shift, reducing.number(), picture.width, picture.height,
            tables.reduction.as_ptr(), tables.reduction.len(), tables.scale.as_ptr(), tables.scale.len(),
            picture.pixels.as_ptr(), picture.pixels.len(), opaque.as_ptr(), opaque.len(),
            rooms.places.as_mut_ptr(), rooms.places.len(), rooms.oklab.as_mut_ptr(), rooms.oklab.len(), &mut count,
        )
    };
    Refusal::unless_accepted(number, count as usize)
}

/// Dithers a picture to a palette of 1 to 256 reduced colours, four bytes
/// each. Writes a palette index a pixel into `indices`, and the colours,
/// normalised, into `output.out`; a transparent pixel gets 0 and four zeros.
///
/// Refuses with 1, 15, 2, 3 and 4.
#[rustfmt::skip]
#[allow(clippy::too_many_arguments, reason = "they are the C call's, in its order")]
pub fn quantize_pixels(
    shift: u32,
    reducing: Reducing,
    kind: u32,
    picture: Picture,
    tables: Tables,
    palette: &[u8],
    indices: &mut [u8],
    output: Output,
) -> Result<(), Refusal> {
    let opaque = reducing.opaque();
    // SAFETY: as the head of this file says.
    let number = unsafe {
        c::badge_quantize_pixels(
            shift, reducing.number(), kind, picture.width, picture.height,
            tables.reduction.as_ptr(), tables.reduction.len(), tables.scale.as_ptr(), tables.scale.len(),
            palette.as_ptr(), palette.len(), picture.pixels.as_ptr(), picture.pixels.len(),
            opaque.as_ptr(), opaque.len(), indices.as_mut_ptr(), indices.len(),
            output.out.as_mut_ptr(), output.out.len(), output.cells.as_mut_ptr(), output.cells.len(),
        )
    };
    Refusal::unless_accepted(number, ())
}

/// Dithers a picture to its own candidates and judges its tiles. Answers how
/// many candidates there are, which then stand in the rooms as
/// [`candidate_colors_in`] leaves them; the colours, normalised, are in
/// `output.out`.
///
/// Refuses with 1, 15, 2, 3, 5, 7 and 8, of which the last has the tile.
#[rustfmt::skip]
pub fn dither_to_mode(
    settings: Settings,
    picture: Picture,
    tables: Tables,
    rooms: Rooms,
    output: Output,
) -> Result<usize, Refusal> {
    let [zero_r, zero_g, zero_b, zero_a] = settings.color_zero.unwrap_or(ReducedColor::TRANSPARENT).0;
    let (opaque, mut count, mut tile) = (settings.reducing.opaque(), 0, 0);
    // SAFETY: as the head of this file says.
    let number = unsafe {
        c::badge_dither_to_mode(
            settings.shift, settings.reducing.number(), settings.kind, picture.width, picture.height,
            settings.origin[0], settings.origin[1], settings.tile[0], settings.tile[1], settings.limit,
            u32::from(settings.color_zero.is_some()), zero_r, zero_g, zero_b, zero_a,
            tables.reduction.as_ptr(), tables.reduction.len(), tables.scale.as_ptr(), tables.scale.len(),
            picture.pixels.as_ptr(), picture.pixels.len(), opaque.as_ptr(), opaque.len(),
            rooms.places.as_mut_ptr(), rooms.places.len(), rooms.oklab.as_mut_ptr(), rooms.oklab.len(),
            output.out.as_mut_ptr(), output.out.len(), output.cells.as_mut_ptr(), output.cells.len(), &mut count,
            &mut tile,
        )
    };
    match number {
        8 => Err(Refusal::TileOver { tile, count: count as usize }),
        _ => Refusal::unless_accepted(number, count as usize),
    }
}
