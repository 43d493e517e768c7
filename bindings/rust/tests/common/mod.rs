//! Tables, pictures and lent slices that the tests share.
#![allow(dead_code)]

use badge_dither::*;

pub const BLACK: [u8; 4] = [0, 0, 0, 255];
pub const WHITE: [u8; 4] = [31, 31, 31, 255];
pub const CLEAR: [u8; 4] = [200, 100, 50, 127];

/// The kinds that are drawn, those of them that pass error on, and those that
/// are retired.
pub const DRAWN: [u32; 9] = [0, 1, 2, 3, 4, 7, 8, 9, 10];
pub const DIFFUSING: [u32; 2] = [9, 10];
pub const RETIRED: [u32; 2] = [5, 6];

/// What the lent slices hold before a call.
pub const RUBBISH: u8 = 0xee;
pub const ODD: f32 = 7.25;
/// No cell can be this far from 0 after a call that accepts.
pub const STRAY: i16 = -4370;

/// The two tables of a mode.
pub struct ModeTables {
    pub reduction: [u8; 256],
    pub scale: [u8; 256],
}

/// The tables of five bits a channel.
pub fn five_bits() -> ModeTables {
    let byte = |i: usize| i as u8;
    ModeTables {
        reduction: std::array::from_fn(|i| byte(i) >> 3),
        scale: std::array::from_fn(|i| byte(i) << 3 | byte(i) >> 2),
    }
}

/// The tables of two bits a channel.
pub fn two_bits() -> ModeTables {
    ModeTables {
        reduction: std::array::from_fn(|i| (i >> 6) as u8),
        scale: std::array::from_fn(|i| (i << 6 | i << 4 | i << 2 | i) as u8),
    }
}

impl ModeTables {
    pub fn tables(&self) -> Tables<'_> {
        Tables { reduction: &self.reduction, scale: &self.scale }
    }
}

pub fn grey(level: u8) -> [u8; 4] {
    [level, level, level, 255]
}

/// A picture in one row.
pub fn row(pixels: &[u8]) -> Picture<'_> {
    Picture { width: (pixels.len() / 4) as u32, height: 1, pixels }
}

/// Slices to lend for a picture of so many pixels, with rubbish in them.
#[derive(Clone, Debug, PartialEq)]
pub struct Lent {
    pub indices: Vec<u8>,
    pub places: Vec<u8>,
    pub oklab: Vec<f32>,
    pub out: Vec<u8>,
    pub cells: Vec<i16>,
}

impl Lent {
    /// For so many pixels, the kind, and so many candidate places.
    pub fn new(pixels: usize, kind: u32, places: usize) -> Lent {
        Lent {
            indices: vec![RUBBISH; pixels],
            places: vec![RUBBISH; 4 * places],
            oklab: vec![ODD; 3 * places],
            out: vec![RUBBISH; 4 * pixels],
            cells: vec![STRAY; if kind::is_diffusion(kind) { 3 * pixels } else { 0 }],
        }
    }

    pub fn rooms(&mut self) -> Rooms<'_> {
        Rooms { places: &mut self.places, oklab: &mut self.oklab }
    }

    /// The candidates, by alpha.
    pub fn candidates(&mut self, shift: u32, picture: Picture, tables: Tables) -> Result<usize, Refusal> {
        candidate_colors_in(shift, Reducing::ByAlpha, picture, tables, self.rooms())
    }

    /// The palette's pass, by alpha.
    pub fn quantize(
        &mut self,
        shift: u32,
        kind: u32,
        picture: Picture,
        tables: Tables,
        palette: &[u8],
    ) -> Result<(), Refusal> {
        self.quantize_by((shift, Reducing::ByAlpha), kind, picture, tables, palette)
    }

    pub fn quantize_by(
        &mut self,
        (shift, reducing): (u32, Reducing),
        kind: u32,
        picture: Picture,
        tables: Tables,
        palette: &[u8],
    ) -> Result<(), Refusal> {
        let output = Output { out: &mut self.out, cells: &mut self.cells };
        quantize_pixels(shift, reducing, kind, picture, tables, palette, &mut self.indices, output)
    }

    pub fn dither(&mut self, settings: Settings, picture: Picture, tables: Tables) -> Result<usize, Refusal> {
        let rooms = Rooms { places: &mut self.places, oklab: &mut self.oklab };
        dither_to_mode(settings, picture, tables, rooms, Output { out: &mut self.out, cells: &mut self.cells })
    }
}

/// By alpha with shift 3, tiles of 8x8, the largest limit.
pub fn settings(kind: u32) -> Settings<'static> {
    let (shift, reducing) = (3, Reducing::ByAlpha);
    Settings { shift, reducing, kind, origin: [0, 0], tile: [8, 8], limit: 256, color_zero: None }
}
