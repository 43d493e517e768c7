//! The pictures that are measured, the modes that they are drawn for, and palettes
//! for them.

use oracle::case::LentTables;
use oracle::model::{BY_ALPHA, GREY, OPAQUE_COLOR};
use oracle::original::{own_opaque, own_tables};
use oracle::port::Read;
use oracle::rng::Rng;

use crate::color::{NormalizedColor, Rgba8888};
use crate::dither;
use crate::image::Image;
use crate::mode::Mode;
use crate::mode::color::ColorRounding;

/// A mode of the original, and how a port is told of it.
#[derive(Clone, Copy)]
pub struct Console {
    pub mode: Mode,
    pub shift: u32,
    pub reducing: u32,
}

const SNES: Console = Console { mode: Mode::Snes, shift: 3, reducing: BY_ALPHA };
pub const GB: Console = Console { mode: Mode::Gb, shift: 6, reducing: GREY };
pub const NGP: Console = Console { mode: Mode::Ngp, shift: 5, reducing: GREY };
pub const SMS: Console = Console { mode: Mode::Sms, shift: 6, reducing: OPAQUE_COLOR };

/// A picture, the mode that it is drawn for, and what is lent for that.
pub struct Subject {
    pub width: u32,
    pub height: u32,
    pub pixels: Vec<u8>,
    pub colors: Vec<NormalizedColor>,
    pub console: Console,
    opaque: Vec<u8>,
    tables: LentTables,
}

fn normalized(bytes: &[u8]) -> NormalizedColor {
    NormalizedColor(Rgba8888::from_bytes(bytes.try_into().unwrap()))
}

/// A colour of eight bits a channel that reduces to number `k` of the 2^15 of
/// five; `low` says which of the 512 that do. An odd factor spreads them.
fn source(k: u32, low: u32) -> [u8; 4] {
    let high = k * 20_077;
    let byte = |shift: u32| ((high >> (5 * shift) & 31) << 3 | low >> (3 * shift) & 7) as u8;
    [byte(2), byte(1), byte(0), 255]
}

fn shuffle(pixels: &mut [[u8; 4]]) {
    let mut rng = Rng::new(7);
    for last in (1..pixels.len()).rev() {
        pixels.swap(last, rng.below(last as u64 + 1) as usize);
    }
}

impl Subject {
    fn new(width: u32, height: u32, pixels: Vec<u8>) -> Subject {
        let colors = pixels.chunks_exact(4).map(normalized).collect();
        let tables = (&own_tables(SNES.shift, false)).into();
        Subject { width, height, colors, pixels, console: SNES, opaque: Vec::new(), tables }
    }

    /// The same picture for a mode that is lent opaque pixels.
    pub fn to(&self, console: Console) -> Subject {
        let opaque = own_opaque(&self.pixels);
        let tables = (&own_tables(console.shift, false)).into();
        let (pixels, colors) = (self.pixels.clone(), self.colors.clone());
        Subject { width: self.width, height: self.height, pixels, colors, console, opaque, tables }
    }

    /// Noise over a range, around a gradient: like a photograph, with most of
    /// its colours different. A wider range has more reduced colours.
    pub fn photo(side: u32, range: u64, seed: u64) -> Subject {
        let mut rng = Rng::new(seed);
        let mut pixels = Vec::new();
        for i in 0..side * side {
            let (x, y) = (i % side * 256 / side, i / side * 256 / side);
            for level in [x, y, 255 - (x + y) / 2] {
                let spread = u64::from(level) * (256 - range) / 256 + rng.below(range);
                pixels.push(spread.min(255) as u8);
            }
            pixels.push(255);
        }
        Subject::new(side, side, pixels)
    }

    /// A picture of few colours.
    pub fn few(side: u32, count: usize) -> Subject {
        let mut rng = Rng::new(4);
        let pool: Vec<[u8; 4]> = (0..count).map(|_| [rng.byte(), rng.byte(), rng.byte(), 255]).collect();
        let pixels = (0..side * side).flat_map(|_| rng.pick(&pool)).collect();
        Subject::new(side, side, pixels)
    }

    /// Smooth colours of little range, so that there are some hundred candidates.
    pub fn smooth(side: u32) -> Subject {
        let pixels = (0..side * side).flat_map(|i| {
            let (x, y) = (i % side * 128 / side, i / side * 128 / side);
            [(64 + x) as u8, (64 + y) as u8, (96 + (x + y) / 4) as u8, 255]
        });
        Subject::new(side, side, pixels.collect())
    }

    /// No colour twice, so that no answer can be remembered.
    pub fn different(side: u32) -> Subject {
        let pixels = (0..side * side).flat_map(|i| {
            // An odd factor reaches each of the 2^24 colours once.
            let [_, r, g, b] = i.wrapping_mul(0x9e_3779).to_be_bytes();
            [r, g, b, 255]
        });
        Subject::new(side, side, pixels.collect())
    }

    /// The same by tables that keep every byte, which none of the original's modes
    /// has: up to 65,536 candidates, of every red, green and blue.
    pub fn kept(side: u32) -> Subject {
        let every: Vec<u8> = (0..=255).collect();
        let tables = LentTables { reduction: every.clone(), scale: every };
        Subject { tables, ..Subject::different(side) }
    }

    /// A picture of 128x64 with no colour twice and just `count` candidates (a
    /// power of two from 16 to 8192), in no order.
    pub fn of_candidates(count: u32) -> Subject {
        let mut pixels: Vec<[u8; 4]> =
            (0..8192 / count).flat_map(|low| (0..count).map(move |k| source(k, low))).collect();
        shuffle(&mut pixels);
        Subject::new(128, 64, pixels.concat())
    }

    /// A picture 128 pixels wide with 4,352 colours, all of them candidates, each
    /// so many times and in no order: the original remembers every colour's
    /// bracket, the port those of at most 256.
    pub fn repeated(times: u32) -> Subject {
        let mut pixels: Vec<[u8; 4]> = (0..times).flat_map(|_| (0..4352).map(|k| source(k, 0o252))).collect();
        shuffle(&mut pixels);
        Subject::new(128, 34 * times, pixels.concat())
    }

    pub fn count(&self) -> usize {
        self.colors.len()
    }

    pub fn read<'a>(&'a self, palette: &'a [u8]) -> Read<'a> {
        let LentTables { reduction, scale } = &self.tables;
        Read { reduction, scale, palette, pixels: &self.pixels, opaque: &self.opaque }
    }

    pub fn image(&self) -> Image {
        Image {
            width: self.width,
            height: self.height,
            src_x: 0,
            src_y: 0,
            data: self.colors.clone(),
            indexed_data: Vec::new(),
            palette: Vec::new(),
            colors: Default::default(),
        }
    }

    pub fn candidates(&self) -> usize {
        dither::candidate_colors_in(&self.image(), self.console.mode, ColorRounding::Truncate).len()
    }
}

/// The pictures that most tables draw, and the side of a large one.
pub struct Pictures {
    pub photo: Subject,
    pub smooth: Subject,
    pub few: Subject,
    pub large: u32,
}

impl Pictures {
    pub fn new(large: u32) -> Pictures {
        Pictures { photo: Subject::photo(128, 96, 1), smooth: Subject::smooth(128), few: Subject::few(128, 12), large }
    }
}

/// Random colours, for the conversion alone.
pub fn colors() -> Vec<[u8; 3]> {
    let mut rng = Rng::new(9);
    (0..100_000).map(|_| [rng.byte(), rng.byte(), rng.byte()]).collect()
}

/// Random entries of five bits a channel.
pub fn palette(entries: usize) -> Vec<u8> {
    let mut rng = Rng::new(3);
    (0..entries).flat_map(|_| [rng.byte() & 31, rng.byte() & 31, rng.byte() & 31, 255]).collect()
}

/// All greys of a mode that reduces to so many.
pub fn greys(count: u8) -> Vec<u8> {
    (0..count).flat_map(|grey| [grey, grey, grey, 255]).collect()
}

/// How a palette's length is told.
pub fn entries_of(count: usize) -> String {
    if count == 1 { "1 entry".into() } else { format!("{count} entries") }
}
