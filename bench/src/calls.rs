//! The calls that are measured: for each the original and a port, ready to be run
//! over the same colours or the same picture again and again.

use std::hint::black_box;

use oracle::case::{Candidates, Quantize, ToMode};
use oracle::port::{Port, Rooms};

use crate::color::{ReducedColor, Rgba8888};
use crate::dither::{self, Dither};
use crate::mode::color::ColorRounding;
use crate::subject::{Console, Subject};

/// A kind by document 01's number, the original's and our name.
pub type Kind = (u32, Dither, &'static str);

pub const OFF: Kind = (0, Dither::Off, "Off");
pub const BAYER: Kind = (3, Dither::Bayer8x8, "Bayer 8x8");
pub const ATKINSON: Kind = (9, Dither::Atkinson, "Atkinson");
pub const FLOYD_STEINBERG: Kind = (10, Dither::FloydSteinberg, "Floyd-Steinberg");

/// The cells of a call: three a pixel for diffusion, else none. They are lent as
/// counts of sixteenths, of 16 bits each. An archive of before request 11 takes the
/// same number for that of floats and writes twice the bytes, so there is room for
/// these, aligned as floats are: one call fits both. What is written is not looked at.
struct Cells {
    room: Vec<f32>,
}

impl Cells {
    fn of(kind: u32, count: usize) -> Cells {
        Cells { room: vec![0.0; if kind >= 9 { 3 * count } else { 0 }] }
    }

    fn lent(&mut self) -> &mut [i16] {
        // SAFETY: as many counts lie in the first half of the room, which nothing else
        // uses meanwhile, and any bytes are counts.
        unsafe { std::slice::from_raw_parts_mut(self.room.as_mut_ptr().cast(), self.room.len()) }
    }
}

/// The conversion of each colour alone, by some way to convert one.
pub fn convert(colors: &[[u8; 3]], conversion: &dyn Fn([u8; 3]) -> [f32; 3]) {
    colors.iter().for_each(|&color| _ = black_box(conversion(color)));
}

/// A port's way; the original's is a stand-in, of which there are several.
pub fn to_oklab<'a>(port: &'a impl Port, colors: &'a [[u8; 3]]) -> impl FnMut() + 'a {
    let conversion = |color| {
        let [mut l, mut a, mut b] = [0.0; 3];
        port.to_oklab(color, [&mut l, &mut a, &mut b]);
        [l, a, b]
    };
    move || convert(colors, &conversion)
}

pub fn quantize_pixels<'a>(
    port: &'a impl Port,
    subject: &'a Subject,
    palette: &'a [u8],
    (kind, dither, _): Kind,
) -> (impl Fn() + 'a, impl FnMut() + 'a) {
    let reduced: Vec<ReducedColor> =
        palette.chunks_exact(4).map(|c| ReducedColor(Rgba8888::from_bytes(c.try_into().unwrap()))).collect();
    let (width, height, count) = (subject.width, subject.height, subject.count());
    let Console { mode, shift, reducing } = subject.console;
    let original = move || {
        let color_at = |i: usize| subject.colors[i];
        let rounding = ColorRounding::Truncate;
        black_box(dither::quantize_pixels(mode, &reduced, width, height, dither, rounding, color_at));
    };
    let case = Quantize { shift, reducing, kind, width, height, ..Quantize::default() };
    let (mut indices, mut out, mut cells) = (vec![0; count], vec![0; 4 * count], Cells::of(kind, count));
    let ported = move || {
        let number = port.quantize_pixels(&case, subject.read(palette), &mut indices, &mut out, cells.lent());
        assert_eq!(number, 0);
    };
    (original, ported)
}

/// With tiles of 8x8 and limit 256, so that no tile is over it.
pub fn dither_to_mode<'a>(
    port: &'a impl Port,
    subject: &'a Subject,
    (kind, dither, _): Kind,
) -> (impl Fn() + 'a, impl FnMut() + 'a) {
    let (count, found, image) = (subject.count(), subject.candidates(), subject.image());
    let Console { mode, shift, reducing } = subject.console;
    let original = move || {
        let budget = dither::TileBudget { width: 8, height: 8, max_colors: 256 };
        let drawn = dither::dither_to_mode(&image, mode, dither, ColorRounding::Truncate, None, budget);
        assert!(black_box(drawn).is_some());
    };
    let (width, height) = (subject.width, subject.height);
    let case = ToMode { shift, reducing, kind, width, height, tile: [8, 8], limit: 256, ..ToMode::default() };
    let (mut places, mut oklab, mut out) = (vec![0; 4 * found], vec![0.0; 3 * found], vec![0; 4 * count]);
    let mut cells = Cells::of(kind, count);
    let ported = move || {
        let rooms = Rooms { places: &mut places, oklab: &mut oklab, out: &mut out, cells: cells.lent() };
        let number = port.dither_to_mode(&case, subject.read(&[]), rooms, &mut 0, &mut 0);
        assert_eq!(number, 0);
    };
    (original, ported)
}

pub fn candidate_colors_in<'a>(port: &'a impl Port, subject: &'a Subject) -> (impl Fn() + 'a, impl FnMut() + 'a) {
    let (image, mode) = (subject.image(), subject.console.mode);
    let original = move || {
        black_box(dither::candidate_colors_in(&image, mode, ColorRounding::Truncate));
    };
    (original, collect(port, subject, subject.candidates()))
}

/// A port's way, with places for just as many candidates as are found.
pub fn collect<'a>(port: &'a impl Port, subject: &'a Subject, found: usize) -> impl FnMut() + 'a {
    let Subject { width, height, console: Console { shift, reducing, .. }, .. } = *subject;
    let case = Candidates { shift, reducing, width, height, ..Candidates::default() };
    let (mut places, mut oklab) = (vec![0; 4 * found], vec![0.0; 3 * found]);
    move || {
        let number = port.candidate_colors_in(&case, subject.read(&[]), &mut places, &mut oklab, &mut 0);
        assert_eq!(number, 0);
    }
}
