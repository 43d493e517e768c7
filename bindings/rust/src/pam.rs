//! PAM files, in the layout of Netpbm's document "pam".
//!
//! What is read: a first line `P7`, then in any order and each once the lines
//! `WIDTH`, `HEIGHT`, `MAXVAL 255` and `DEPTH 4` with `TUPLTYPE RGB_ALPHA` or
//! `DEPTH 3` with `TUPLTYPE RGB`, comments and blank lines in between, and
//! `ENDHDR`; then the pixels, and nothing after them. The C header has it in
//! full. What is written is one form of it, in which the lines are `P7`,
//! `WIDTH`, `HEIGHT`, `DEPTH 4`, `MAXVAL 255`, `TUPLTYPE RGB_ALPHA` and `ENDHDR`.
//! Reading back what was written gives the same size and pixels.
//!
//! ```
//! use badge_dither::pam;
//!
//! let file = b"P7\n# two pixels\nMAXVAL 255\nWIDTH 2\nHEIGHT 1\nDEPTH 3\nTUPLTYPE RGB\nENDHDR\nredsky";
//! let image = pam::read(file)?;
//! assert_eq!((image.width, image.height), (2, 1));
//! assert_eq!(image.pixels, b"red\xffsky\xff");
//!
//! let written = pam::write(image.picture())?;
//! assert!(written.starts_with(b"P7\nWIDTH 2\nHEIGHT 1\nDEPTH 4\nMAXVAL 255\nTUPLTYPE RGB_ALPHA\nENDHDR\n"));
//! assert_eq!(pam::read(&written)?, image);
//! # Ok::<(), badge_dither::Refusal>(())
//! ```
//!
//! SAFETY, for every call below: pointers and lengths are those of live slices
//! and values. What the call writes is borrowed for it alone.

use crate::c;
use crate::{Picture, Refusal};

/// A picture with its pixels, as a file has it.
#[derive(Clone, Debug, PartialEq, Eq)]
pub struct Image {
    /// Pixels in a row.
    pub width: u32,
    /// Rows.
    pub height: u32,
    /// Four bytes a pixel: red, green, blue, alpha.
    pub pixels: Vec<u8>,
}

impl Image {
    /// What the other calls take.
    pub fn picture(&self) -> Picture<'_> {
        Picture { width: self.width, height: self.height, pixels: &self.pixels }
    }
}

/// Width and height of the picture in a file. A file that has them can be
/// read.
///
/// Refuses with 10, 2 and 11.
pub fn size(file: &[u8]) -> Result<(u32, u32), Refusal> {
    let (mut width, mut height) = (0, 0);
    // SAFETY: as the head of this file says.
    let number = unsafe { c::badge_pam_size(file.as_ptr(), file.len(), &mut width, &mut height) };
    Refusal::unless_accepted(number, (width, height))
}

/// Reads a file. Pixels of an RGB file get alpha 255.
///
/// Refuses with 10, 2 and 11.
pub fn read(file: &[u8]) -> Result<Image, Refusal> {
    let (width, height) = size(file)?;
    let mut pixels = vec![0; 4 * width as usize * height as usize];
    read_into(file, &mut pixels)?;
    Ok(Image { width, height, pixels })
}

/// Reads a file into a slice of four bytes a pixel, for the size that
/// [`size()`] gives. Answers with width and height.
///
/// Refuses with 10, 2, 11 and 3.
#[rustfmt::skip]
pub fn read_into(file: &[u8], pixels: &mut [u8]) -> Result<(u32, u32), Refusal> {
    let (mut width, mut height) = (0, 0);
    // SAFETY: as the head of this file says.
    let number = unsafe {
        c::badge_read_pam(
            file.as_ptr(), file.len(), pixels.as_mut_ptr(), pixels.len(), &mut width, &mut height,
        )
    };
    Refusal::unless_accepted(number, (width, height))
}

/// How many bytes the file of a picture has.
///
/// Refuses with 10 (a side is 0) and 2.
pub fn length(width: u32, height: u32) -> Result<usize, Refusal> {
    let mut length = 0;
    // SAFETY: as the head of this file says.
    let number = unsafe { c::badge_pam_length(width, height, &mut length) };
    Refusal::unless_accepted(number, length as usize)
}

/// The file of a picture.
///
/// Refuses with 10 (a side is 0), 2 and 3 (the pixels are not four bytes each).
pub fn write(picture: Picture) -> Result<Vec<u8>, Refusal> {
    let mut file = vec![0; length(picture.width, picture.height)?];
    write_into(picture, &mut file)?;
    Ok(file)
}

/// Writes the file of a picture into a slice of the [`length()`] that it has.
///
/// Refuses with 10 (a side is 0), 2 and 3.
#[rustfmt::skip]
pub fn write_into(picture: Picture, file: &mut [u8]) -> Result<(), Refusal> {
    // SAFETY: as the head of this file says.
    let number = unsafe {
        c::badge_write_pam(
            picture.width, picture.height, picture.pixels.as_ptr(), picture.pixels.len(),
            file.as_mut_ptr(), file.len(),
        )
    };
    Refusal::unless_accepted(number, ())
}
