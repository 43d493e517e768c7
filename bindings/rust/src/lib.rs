//! The badge dither: SuperFamiconv's dithering, proved, behind safe functions.
//!
//! Every call ends with an answer or a numbered [`Refusal`], for any input at
//! all. Nothing is kept after a call and no memory is allocated: results go
//! into slices that the caller lends, whose lengths have to be exactly those
//! needed. ([`pam::read`], [`pam::write`] and [`opaque_threshold`] alone answer
//! with a `Vec`; each has a form beside it that takes a slice.)
//!
//! A colour in a slice is four bytes: red, green, blue, alpha. A *reduced*
//! colour has a console's own precision, a *normalised* one is the same colour
//! from 0 to 255. The shift, 3 to 6, and the reduction, a [`Reducing`], are those
//! of the console's mode.
//!
//! Five grey levels of one row, dithered to black and white:
//!
//! ```
//! use badge_dither::{kind, quantize_pixels, Output, Picture, Reducing, Tables};
//!
//! // Five bits a channel: reducing drops three bits, scaling repeats the upper ones.
//! let reduction: Vec<u8> = (0..=255).map(|v: u8| v >> 3).collect();
//! let scale: Vec<u8> = (0..=255).map(|v: u8| v << 3 | v >> 2).collect();
//! let pixels = [0, 64, 128, 192, 255].map(|v| [v, v, v, 255]).concat();
//! let palette = [[0, 0, 0, 255], [31, 31, 31, 255]].concat();
//!
//! let (mut indices, mut out, mut cells) = ([0; 5], [0; 20], [0; 15]);
//! quantize_pixels(
//!     3,
//!     Reducing::ByAlpha,
//!     kind::FLOYD_STEINBERG,
//!     Picture { width: 5, height: 1, pixels: &pixels },
//!     Tables { reduction: &reduction, scale: &scale },
//!     &palette,
//!     &mut indices,
//!     Output { out: &mut out, cells: &mut cells },
//! )?;
//! assert_eq!(indices, [0, 0, 1, 1, 1]);
//! assert_eq!(out[8..12], [255, 255, 255, 255]);
//! // The second pixel is 64 too light for black. The third got 7/16 of that: 7 * 64 sixteenths.
//! assert_eq!(cells[6..9], [448; 3]);
//! # Ok::<(), badge_dither::Refusal>(())
//! ```
//!
//! Pictures come from PAM files and go into them by [`pam`].

#![warn(missing_docs)]

mod c;
pub mod kind;
mod lookups;
pub mod pam;
mod pictures;
mod reducing;
mod refusal;
mod values;

pub use lookups::{nearest, nearest_two, ordered_bracket, pick, Bracket, Candidates, Choice};
pub use pictures::{candidate_colors_in, dither_to_mode, quantize_pixels, Output, Picture, Rooms, Settings, Tables};
pub use reducing::{opaque_threshold, opaque_threshold_into, Reducing};
pub use refusal::Refusal;
pub use values::{
    bracket_width, lerp, oklab_sqdist, ordered_threshold, to_oklab, NormalizedColor, Oklab, ReducedColor,
};
