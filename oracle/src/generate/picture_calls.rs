//! Random cases of the calls on pictures.

use super::maker::Maker;
use super::pictures::Canvas;
use crate::case::{Candidates, Quantize, ToMode};
use crate::model::{self, BY_ALPHA};
use crate::original::{Rgba, Settings};

impl Maker<'_> {
    pub(super) fn candidates(&mut self) -> Candidates {
        let canvas = self.canvas();
        let places = self.places(&canvas);
        let mut case = Candidates {
            shift: canvas.shift,
            reducing: canvas.reducing,
            width: canvas.width,
            height: canvas.height,
            tables: (&canvas.tables).into(),
            places: self.rng.bytes(4 * places),
            oklab: self.rubbish_floats(3 * places),
            pixels: canvas.pixels,
            opaque: canvas.opaque,
        };
        for _ in 0..self.faults() {
            match self.rng.below(6) {
                0 => [case.shift, case.reducing] = self.bad_pairing(),
                1 => [case.width, case.height] = self.bad_size(),
                2 => self.misfit(&mut case.pixels, 4, 200),
                3 => self.spoil_opaque(&mut case.opaque, &case.pixels),
                4 => self.spoil_tables(&mut case.tables),
                _ => self.spoil_rooms(&mut case.places, &mut case.oklab),
            }
        }
        case
    }

    fn palette_length(&mut self) -> u64 {
        let large = self.style.large;
        let r = &mut self.rng;
        match r.below(100) {
            0..8 => 1,
            8..50 => r.within(2, 6),
            50..80 if large => r.within(7, 20),
            80..90 if large => r.within(21, 64),
            90..93 if large => r.within(65, 254),
            93..96 if large => r.within(255, 256),
            96 => 0,
            97 => 257,
            98 if large => r.within(257, 300),
            _ => r.within(2, 9),
        }
    }

    /// Colours of the picture, others, twins and transparent ones.
    fn palette(&mut self, canvas: &Canvas) -> Vec<u8> {
        let of_picture: Vec<Rgba> = canvas.reduced().into_iter().collect();
        let mut palette: Vec<Rgba> = Vec::new();
        for _ in 0..self.palette_length() {
            let r = &mut self.rng;
            let [x, y, z] = [r.byte(), r.byte(), r.byte()];
            let low = 255 >> canvas.shift;
            let entry = match r.below(10) {
                0 if !palette.is_empty() => r.pick(&palette),
                1 => r.pick(&[[0, 0, 0, 0], [x & low, y & low, z & low, 0], [x, y, z, 0]]),
                2 => [x, y, z, r.byte()],
                3..7 if !of_picture.is_empty() => r.pick(&of_picture),
                _ => [x & low, y & low, z & low, 255],
            };
            palette.push(entry);
        }
        palette.concat()
    }

    pub(super) fn quantize(&mut self) -> Quantize {
        let canvas = self.canvas();
        let (kind, count) = (self.kind(), canvas.count());
        let palette = if self.wants_twins() { self.twin_palette(&canvas) } else { self.palette(&canvas) };
        let mut case = Quantize {
            shift: canvas.shift,
            reducing: canvas.reducing,
            kind,
            width: canvas.width,
            height: canvas.height,
            tables: (&canvas.tables).into(),
            palette,
            indices: self.rng.bytes(count),
            out: self.rng.bytes(4 * count),
            cells: self.cells(kind, count),
            pixels: canvas.pixels,
            opaque: canvas.opaque,
        };
        for _ in 0..self.faults() {
            self.spoil_quantize(&mut case);
        }
        case
    }

    fn spoil_quantize(&mut self, case: &mut Quantize) {
        match self.rng.below(10) {
            0 => [case.shift, case.reducing] = self.bad_pairing(),
            1 => case.kind = self.bad_kind(),
            2 => [case.width, case.height] = self.bad_size(),
            3 => self.misfit(&mut case.pixels, 4, 200),
            4 => self.misfit(&mut case.indices, 4, 0x77),
            5 => self.misfit(&mut case.out, 4, 0x78),
            6 => self.misfit(&mut case.cells, 3, 8),
            7 => self.misfit(&mut case.palette, 4, 1),
            8 => self.spoil_opaque(&mut case.opaque, &case.pixels),
            _ => self.spoil_tables(&mut case.tables),
        }
    }

    fn origin(&mut self, side: u32) -> u32 {
        let r = &mut self.rng;
        let last = u32::MAX - side.min(5000);
        match r.below(60) {
            0..30 => 0,
            30..45 => r.below(20) as u32,
            45..50 => last - r.below(9) as u32,
            50 => last.saturating_add(1),
            _ => r.below(u64::from(last)) as u32,
        }
    }

    fn tile_side(&mut self, side: u32) -> u32 {
        let near = self.rng.within(1, u64::from(side.clamp(1, 4000)) + 2) as u32;
        self.rng.pick(&[1, 2, 3, 8, 8, 8, 4096, near, near, near])
    }

    /// Mostly a reduced colour of the picture, which is that of the opaque pixel; else
    /// one of the pixel's own, which is to be hit by none, or any.
    fn zero(&mut self, canvas: &Canvas) -> Rgba {
        let own = canvas.reducing != BY_ALPHA && self.rng.one_in(3);
        let of_picture = if own { canvas.reduced_pixels() } else { canvas.reduced() };
        let of_picture: Vec<Rgba> = of_picture.into_iter().collect();
        let random = [self.rng.byte(), self.rng.byte(), self.rng.byte(), self.rng.byte()];
        if of_picture.is_empty() || self.rng.one_in(4) {
            return random;
        }
        let [r, g, b, _] = self.rng.pick(&of_picture);
        [r, g, b, self.rng.pick(&[0, 255, random[3]])]
    }

    fn limit(&mut self) -> u32 {
        let r = &mut self.rng;
        match r.below(10) {
            0 => 256,
            1 => r.within(9, 255) as u32,
            2 => 0,
            _ => r.within(1, 12) as u32,
        }
    }

    pub(super) fn to_mode(&mut self) -> ToMode {
        let canvas = self.canvas();
        let (kind, count, places) = (self.kind(), canvas.count(), self.places(&canvas));
        let mut case = ToMode {
            shift: canvas.shift,
            reducing: canvas.reducing,
            kind,
            width: canvas.width,
            height: canvas.height,
            origin: [self.origin(canvas.width), self.origin(canvas.height)],
            tile: [self.tile_side(canvas.width), self.tile_side(canvas.height)],
            limit: self.limit(),
            has_zero: self.rng.pick(&[0, 0, 1, 1, if self.style.finite { 1 } else { 256 }]),
            zero: self.zero(&canvas),
            tables: (&canvas.tables).into(),
            places: self.rng.bytes(4 * places),
            oklab: self.rubbish_floats(3 * places),
            out: self.rng.bytes(4 * count),
            cells: self.cells(kind, count),
            pixels: Vec::new(),
            opaque: Vec::new(),
        };
        if self.rng.one_in(3) && count > 0 && count < 2000 {
            case.limit = self.aimed_limit(&case, &canvas);
        }
        (case.pixels, case.opaque) = (canvas.pixels, canvas.opaque);
        for _ in 0..self.faults() {
            self.spoil_to_mode(&mut case);
        }
        case
    }

    /// As many colours as the fullest tile has, or one fewer.
    fn aimed_limit(&mut self, case: &ToMode, canvas: &Canvas) -> u32 {
        let settings = Settings {
            kind: case.kind,
            width: case.width,
            height: case.height,
            origin: [0, 0],
            tile: case.tile,
            limit: case.limit,
            zero: (case.has_zero != 0).then_some(case.zero),
        };
        let drawn = model::dither_to_mode(canvas.lent(), &settings);
        (drawn.most_colors as u32).saturating_sub(self.rng.below(2) as u32).min(256)
    }

    fn spoil_to_mode(&mut self, case: &mut ToMode) {
        match self.rng.below(12) {
            0 => [case.shift, case.reducing] = self.bad_pairing(),
            1 => case.kind = self.bad_kind(),
            2 => [case.width, case.height] = self.bad_size(),
            3 => {
                let side = self.rng.below(2) as usize;
                let least = u32::MAX - [case.width, case.height][side].min(5000);
                case.origin[side] = self.rng.within(u64::from(least), u64::from(u32::MAX)) as u32;
            }
            4 => self.misfit(&mut case.pixels, 4, 200),
            5 => self.misfit(&mut case.out, 4, 0x78),
            6 => self.misfit(&mut case.cells, 3, 8),
            7 => self.spoil_rooms(&mut case.places, &mut case.oklab),
            8 => case.tile[self.rng.below(2) as usize] = self.rng.pick(&[0, 4097, u32::MAX, 65_537]),
            9 => case.limit = self.rng.pick(&[257, 258, 512, 65_536, u32::MAX]),
            10 => self.spoil_opaque(&mut case.opaque, &case.pixels),
            _ => self.spoil_tables(&mut case.tables),
        }
    }
}
