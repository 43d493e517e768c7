//! How a mode reduces a pixel, with what the two later ways are lent for it.

use crate::Refusal;

/// How a mode reduces a pixel. Each goes with some shifts and with no others:
/// any other pair is refused with [`KindOrShift`](Refusal::KindOrShift).
///
/// Grey and opaque colour are lent the *opaque pixels*, four bytes for each
/// pixel of the picture; slices of another length are refused with
/// [`Length`](Refusal::Length). What the original takes there is what
/// [`opaque_threshold`] answers, but any bytes will do, also the picture's own,
/// and no alpha of theirs is read. No pixel is transparent then, whatever its
/// alpha. The reduced colour alone comes from them: the colour that is dithered
/// is still the picture's own.
///
/// How a Game Boy, which has two bits a channel, reduces one pixel:
///
/// ```
/// use badge_dither::{candidate_colors_in, opaque_threshold, Picture, Reducing, Rooms, Tables};
///
/// let reduction: Vec<u8> = (0..=255).map(|v: u8| v >> 6).collect();
/// let scale: Vec<u8> = (0..=255).map(|v: u8| v << 6 | v << 4 | v << 2 | v).collect();
/// let pixels = [255, 128, 7, 255];
/// let (mut places, mut oklab) = ([0; 4], [0.0; 3]);
/// candidate_colors_in(
///     6,
///     Reducing::Grey(&opaque_threshold(&pixels)),
///     Picture { width: 1, height: 1, pixels: &pixels },
///     Tables { reduction: &reduction, scale: &scale },
///     Rooms { places: &mut places, oklab: &mut oklab },
/// )?;
/// // The luma is 146.
/// assert_eq!(places, [2, 2, 2, 255]);
/// # Ok::<(), badge_dither::Refusal>(())
/// ```
#[derive(Clone, Copy, Debug, PartialEq, Eq)]
pub enum Reducing<'a> {
    /// 0, shift 3, 4 or 5: a pixel whose alpha is below 128 is transparent, and
    /// any other reduces to its red, green and blue.
    ByAlpha,
    /// 1, shift 5 or 6: a pixel reduces to the luma of its opaque pixel, three
    /// times. The luma is worked out in floats, as the original does it, and cut
    /// to a byte.
    Grey(&'a [u8]),
    /// 2, shift 6: a pixel reduces to red, green and blue of its opaque pixel.
    OpaqueColor(&'a [u8]),
}

impl<'a> Reducing<'a> {
    /// The number that the C interface takes.
    pub const fn number(self) -> u32 {
        match self {
            Reducing::ByAlpha => 0,
            Reducing::Grey(_) => 1,
            Reducing::OpaqueColor(_) => 2,
        }
    }

    /// The opaque pixels; there are none by alpha.
    pub const fn opaque(self) -> &'a [u8] {
        match self {
            Reducing::ByAlpha => &[],
            Reducing::Grey(opaque) | Reducing::OpaqueColor(opaque) => opaque,
        }
    }
}

/// The opaque pixels of a picture's pixels, by the original's rule: the pixel
/// itself, or four zeros where its alpha is below 128. There are as many bytes
/// as in `pixels`; fewer than four that are left over stay as they are.
///
/// ```
/// use badge_dither::opaque_threshold;
///
/// assert_eq!(opaque_threshold(&[9, 8, 7, 128, 9, 8, 7, 127]), [9, 8, 7, 128, 0, 0, 0, 0]);
/// ```
pub fn opaque_threshold(pixels: &[u8]) -> Vec<u8> {
    let mut opaque = pixels.to_vec();
    clear(&mut opaque);
    opaque
}

/// The same, into a slice as long as `pixels`.
///
/// Refuses with 3.
pub fn opaque_threshold_into(pixels: &[u8], opaque: &mut [u8]) -> Result<(), Refusal> {
    if opaque.len() != pixels.len() {
        return Err(Refusal::Length);
    }
    opaque.copy_from_slice(pixels);
    clear(opaque);
    Ok(())
}

/// Makes zeros of the pixels whose alpha is below 128.
fn clear(pixels: &mut [u8]) {
    pixels.chunks_exact_mut(4).filter(|pixel| pixel[3] < 128).for_each(|pixel| pixel.fill(0));
}
