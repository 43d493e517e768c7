//! What random cases of the calls on pictures share: sizes, tables, pixels, and
//! the rooms and cells that are lent.

use std::collections::BTreeSet;

use super::maker::Maker;
use crate::case::LentTables;
use crate::hooks::Tables;
use crate::model::{self, BY_ALPHA, Lent, PAIRINGS};
use crate::original::{Rgba, own_opaque, own_tables};

/// What a picture is drawn from, before the call's own parameters.
pub(super) struct Canvas {
    pub(super) shift: u32,
    pub(super) reducing: u32,
    pub(super) width: u32,
    pub(super) height: u32,
    pub(super) tables: Tables,
    pub(super) pixels: Vec<u8>,
    pub(super) opaque: Vec<u8>,
}

impl Canvas {
    /// Zero for sizes that are too large to be lent.
    pub(super) fn count(&self) -> usize {
        self.pixels.len() / 4
    }

    pub(super) fn lent(&self) -> Lent<'_> {
        let Canvas { shift, reducing, ref tables, ref pixels, ref opaque, .. } = *self;
        Lent { shift, reducing, tables, pixels, opaque }
    }

    pub(super) fn reduced(&self) -> BTreeSet<Rgba> {
        self.lent().colors()
    }

    /// What a port would find that reduces the pixels in place of the opaque ones.
    pub(super) fn reduced_pixels(&self) -> BTreeSet<Rgba> {
        Lent { opaque: &self.pixels, ..self.lent() }.colors()
    }
}

impl Maker<'_> {
    fn size(&mut self) -> [u32; 2] {
        let (side, large) = (self.style.side, self.style.large);
        let r = &mut self.rng;
        let usual = [r.within(1, side) as u32, r.within(1, side) as u32];
        let long = r.within(25, 4096) as u32;
        match r.below(1000) {
            0..20 => r.pick(&[[0, usual[1]], [usual[0], 0], [0, 0], [4096, 0], [0, 4096]]),
            20..60 => r.pick(&[[1, usual[1]], [usual[0], 1], [1, 1], [2, 2]]),
            60..70 if large => r.pick(&[[long, 1], [1, long], [4096, 1], [1, 4096], [3, 400], [600, 2]]),
            70..80 if large => [r.within(25, 80) as u32, r.within(25, 80) as u32],
            80..95 => r.pick(&[[4097, 0], [0, 4097], [u32::MAX, 0], [0, u32::MAX], [0, 1 << 16]]),
            95..105 if large => r.pick(&[[4097, 1], [1, 4097], [5000, 2]]),
            // Too large to be lent; the products of some wrap around to 0.
            105..115 => {
                r.pick(&[[4096, 4096], [65_536, 65_536], [u32::MAX; 2], [1025, 1024], [257, 4096], [4096, 257]])
            }
            _ => usual,
        }
    }

    fn tables(&mut self, shift: u32) -> Tables {
        let r = &mut self.rng;
        let own = |shift, nearest| own_tables(shift, nearest);
        match r.below(12) {
            0 => Tables { reduction: std::array::from_fn(|v| v as u8), scale: std::array::from_fn(|v| v as u8) },
            1..3 => Tables { reduction: std::array::from_fn(|_| r.byte()), scale: std::array::from_fn(|_| r.byte()) },
            3 => {
                let few = [r.byte(), r.byte(), r.byte()];
                Tables { reduction: std::array::from_fn(|_| r.pick(&few)), ..own(shift, false) }
            }
            4 => {
                let few = [r.byte(), r.byte(), r.byte()];
                Tables { scale: std::array::from_fn(|_| r.pick(&few)), ..own(shift, false) }
            }
            5 => own(r.within(3, 6) as u32, r.one_in(2)),
            _ => own(shift, r.one_in(2)),
        }
    }

    fn alpha(&mut self, style: u64) -> u8 {
        let r = &mut self.rng;
        match style {
            0 => r.byte(),
            1 => r.pick(&[0, 127, 128, 255]),
            2 if r.one_in(6) => r.pick(&[0, 127, 1]),
            3 => r.pick(&[0, 1, 127]),
            _ => 255,
        }
    }

    fn pixels(&mut self, width: u32, height: u32) -> Vec<u8> {
        let count = width as usize * height as usize;
        let style = self.rng.below(6);
        // Whole pictures of transparent pixels are rarer than the other alphas.
        let alpha_style = self.rng.pick(&[0, 1, 1, 2, 2, 2, 3, 4, 4, 4, 4]);
        let few = self.rng.within(1, 6);
        let pool: Vec<[u8; 3]> = (0..few).map(|_| self.rgb()).collect();
        let [from, to] = [self.rgb(), self.rgb()];
        let mut pixels = Vec::with_capacity(4 * count);
        for i in 0..count {
            let share = if style == 1 { i % width as usize } else { i } as i32;
            let span = (if style == 1 { width as i32 } else { count as i32 } - 1).max(1);
            let color = match style {
                0 => self.rng.pick(&pool),
                1 | 2 => std::array::from_fn(|k| {
                    (i32::from(from[k]) + (i32::from(to[k]) - i32::from(from[k])) * share / span) as u8
                }),
                3 => from.map(|v| v.saturating_add(self.rng.below(24) as u8)),
                _ => std::array::from_fn(|_| self.rng.byte()),
            };
            pixels.extend(color);
            pixels.push(self.alpha(alpha_style));
        }
        pixels
    }

    /// Nearly or just grey, where luma is soon another one.
    fn near_grey(&mut self) -> [u8; 3] {
        let r = &mut self.rng;
        let grey = r.byte();
        let off = r.pick(&[0, 0, 1, 2]);
        std::array::from_fn(|_| grey.saturating_add(r.within(0, off) as u8))
    }

    /// The opaque pixels: what `opaque_threshold` makes of the pixels, the pixels
    /// themselves, near greys, or anything. The last two have any alpha, as no call
    /// looks at it.
    fn opaque(&mut self, pixels: &[u8]) -> Vec<u8> {
        let near_greys = match self.rng.below(5) {
            0 => return own_opaque(pixels),
            1 => return pixels.to_vec(),
            style => style < 4,
        };
        let mut opaque = Vec::with_capacity(pixels.len());
        for _ in 0..pixels.len() / 4 {
            opaque.extend(if near_greys { self.near_grey() } else { self.rgb() });
            opaque.push(self.rng.byte());
        }
        opaque
    }

    pub(super) fn canvas(&mut self) -> Canvas {
        let [width, height] = self.size();
        let [shift, reducing] = self.fixed.map_or_else(|| self.rng.pick(&PAIRINGS), |f| [f.shift, f.reducing]);
        let tables = self.fixed.map_or_else(|| self.tables(shift), |f| f.tables.clone());
        let lent = u64::from(width) * u64::from(height) <= 10_000;
        let pixels = if lent { self.pixels(width, height) } else { Vec::new() };
        let opaque = if reducing == BY_ALPHA { Vec::new() } else { self.opaque(&pixels) };
        Canvas { shift, reducing, width, height, tables, pixels, opaque }
    }

    pub(super) fn cells(&mut self, kind: u32, count: usize) -> Vec<i16> {
        self.rubbish_cells(if model::is_diffusion(kind) { 3 * count } else { 0 })
    }

    /// Room for about as many candidates as there are.
    pub(super) fn places(&mut self, canvas: &Canvas) -> usize {
        let found = canvas.reduced().len();
        let large = self.style.large;
        let r = &mut self.rng;
        match r.below(400) {
            0 if large => 65_536,
            1 if large => 65_537,
            2..60 => found.saturating_sub(r.within(1, 2) as usize),
            60..80 => 0,
            80..200 => found + r.within(1, 6) as usize,
            _ => found,
        }
    }

    pub(super) fn spoil_tables(&mut self, tables: &mut LentTables) {
        let length = self.rng.pick(&[0, 1, 255, 257, 512]);
        let table = if self.rng.one_in(2) { &mut tables.reduction } else { &mut tables.scale };
        table.resize(if self.style.finite { 255 } else { length }, 3);
    }

    pub(super) fn spoil_rooms(&mut self, places: &mut Vec<u8>, oklab: &mut Vec<f32>) {
        if self.rng.one_in(2) {
            self.misfit(places, 4, 0x66);
        } else {
            self.misfit(oklab, 3, 0.5);
        }
    }

    /// Opaque pixels more or fewer than fit, or none where some are asked for, or as many
    /// as pixels where none are.
    pub(super) fn spoil_opaque(&mut self, opaque: &mut Vec<u8>, pixels: &[u8]) {
        match opaque.is_empty() {
            _ if self.rng.one_in(2) => self.misfit(opaque, 4, 0x67),
            true => *opaque = pixels.to_vec(),
            false => opaque.clear(),
        }
    }

    pub(super) fn bad_size(&mut self) -> [u32; 2] {
        self.rng.pick(&[[4097, 1], [1, 4097], [4097, 0], [1025, 1024], [65_536, 65_536], [u32::MAX, 1]])
    }

    /// How many of its bounds a case breaks: mostly none.
    pub(super) fn faults(&mut self) -> u64 {
        if self.rng.one_in(4) { self.rng.pick(&[1, 1, 1, 2, 3]) } else { 0 }
    }
}
