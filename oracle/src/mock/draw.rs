//! How the mock draws a picture, judges its tiles and collects its candidates.

use std::collections::BTreeSet;

use super::choose::rgba;
use super::reduce::Reduced;
use super::slip::{Mock, Slip};
use crate::case::ToMode;
use crate::model::{self, Entry};
use crate::original::{Bracket, Rgba};
use crate::port::Read;

/// A picture to be drawn.
pub(super) struct Drawing<'a> {
    pub(super) kind: u32,
    pub(super) size: [usize; 2],
    pub(super) origin: [u32; 2],
    pub(super) zero: Option<Rgba>,
    pub(super) from: Reduced<'a>,
    pub(super) candidates: Vec<Entry>,
    pub(super) width: u64,
}

/// What was chosen at a pixel: a reduced colour, and whether it counts in its
/// tile. None where the pixel is transparent.
pub(super) type Chosen = Option<(Rgba, bool)>;

impl Drawing<'_> {
    fn pixel(&self, i: usize) -> Rgba {
        rgba(self.from.read.pixels, i)
    }

    pub(super) fn normalized(&self, color: Rgba) -> Rgba {
        color.map(|v| self.from.read.scale[usize::from(v)])
    }
}

impl Mock {
    pub(super) fn entry(&self, read: Read, reduced: Rgba) -> Entry {
        let normalized = reduced.map(|v| read.scale[usize::from(v)]);
        Entry { reduced, normalized, oklab: self.convert(model::rgb(normalized)) }
    }

    /// Adds a residual, in sixteenths, to the cells that the kernel reaches from pixel
    /// `i`.
    fn scatter(&self, drawing: &Drawing, cells: &mut [i16], i: usize, residual: [i32; 3]) {
        let [width, height] = drawing.size.map(|side| side as i64);
        let (x, y) = (i as i64 % width, i as i64 / width);
        for &(dx, dy, weight) in model::kernel(drawing.kind) {
            let (tx, ty) = (x + dx, y + dy);
            if tx < 0 || ty < 0 || tx >= width || ty >= height {
                continue;
            }
            let at = 3 * (ty * width + tx) as usize;
            for (k, of_channel) in residual.into_iter().enumerate() {
                let to = if self.has_slip(Slip::SendGoesToNextChannel) { (k + 1) % 3 } else { k };
                let sum = i32::from(cells[at + to]) + self.sent(drawing.kind, weight, of_channel);
                cells[at + to] = self.kept(sum);
            }
        }
    }

    /// A weight's share of a residual, all three in sixteenths. The residual of a right
    /// port is a whole number of levels, so that its share is exact.
    fn sent(&self, kind: u32, weight: i32, residual: i32) -> i32 {
        match self.slip {
            Some(Slip::AtkinsonSharesAll) if kind == model::ATKINSON => residual * weight * 8 / (6 * 16),
            Some(Slip::SendsWholeLevelsOnly) => residual * weight / 256 * 16,
            _ => residual * weight / 16,
        }
    }

    /// A sum as a cell keeps it. That of a right port is within 4080 either way, and so
    /// kept as it is; with a slip it may be any.
    fn kept(&self, sum: i32) -> i16 {
        let largest = match self.slip {
            Some(Slip::CellsSaturateInEightBits) => 127,
            Some(Slip::CellsSaturateInTwelveBits) => 2047,
            _ => i16::MAX,
        };
        sum.clamp(i32::from(-largest) - 1, largest.into()) as i16
    }

    /// What a cell adds to its source, in sixteenths.
    fn added(&self, cell: i16) -> i32 {
        let count = i32::from(cell);
        match self.slip {
            // Halves of the cell away from zero, and not those of the sum.
            Some(Slip::CellRoundedAlone) => 16 * count.signum() * ((count.abs() + 8) / 16),
            // A division of whole numbers goes toward zero: up, where they are negative.
            Some(Slip::NegativeCellRoundedTowardZero) => 16 * ((count + 8) / 16),
            Some(Slip::CellReadUnsigned) => cell.cast_unsigned().into(),
            _ => count,
        }
    }

    /// Sixteenths to a byte, halves up, within 0..255. Where that is not away from zero,
    /// below 0, all are clipped.
    fn to_byte(&self, sixteenths: i32) -> u8 {
        let half = if self.has_slip(Slip::RoundsHalvesDown) { 7 } else { 8 };
        let rounded = (sixteenths + half).div_euclid(16);
        if self.has_slip(Slip::BiasedWraps) { rounded as u8 } else { rounded.clamp(0, 255) as u8 }
    }

    fn diffuse_pixel(&self, drawing: &Drawing, cells: &mut [i16], i: usize) -> Rgba {
        let pixel = self.dithered(drawing, i);
        let sum: [i32; 3] = std::array::from_fn(|k| 16 * i32::from(pixel[k]) + self.added(cells[3 * i + k]));
        let biased = sum.map(|v| self.to_byte(v));
        let chosen = self.nearest_entry(drawing, biased);
        let residual = std::array::from_fn(|k| {
            let unrounded = self.has_slip(Slip::ResidualFromUnroundedSum);
            let had = if unrounded { sum[k] } else { 16 * i32::from(biased[k]) };
            had - 16 * i32::from(chosen.normalized[k])
        });
        if self.has_slip(Slip::CellsClearedAfterUse) {
            cells[3 * i..3 * i + 3].fill(0);
        }
        self.scatter(drawing, cells, i, residual);
        chosen.reduced
    }

    fn nearest_entry(&self, drawing: &Drawing, color: [u8; 3]) -> Entry {
        let at = if self.has_slip(Slip::FixedPaletteEntry) { 0 } else { self.find_nearest(&drawing.candidates, color) };
        drawing.candidates[at]
    }

    /// The pixel whose colour is dithered.
    fn dithered(&self, drawing: &Drawing, i: usize) -> Rgba {
        let opaque = self.has_slip(Slip::OpaqueDithered) && drawing.from.reducing != model::BY_ALPHA;
        if opaque { drawing.from.opaque(i) } else { drawing.pixel(i) }
    }

    fn dither_pixel(&self, drawing: &Drawing, cells: &mut [i16], i: usize) -> Rgba {
        let color = model::rgb(self.dithered(drawing, i));
        if model::is_diffusion(drawing.kind) {
            return self.diffuse_pixel(drawing, cells, i);
        }
        if drawing.kind == model::OFF || self.has_slip(Slip::FixedPaletteEntry) {
            return self.nearest_entry(drawing, color).reduced;
        }
        let crop = if self.has_slip(Slip::MatrixInsideCrop) { [0, 0] } else { drawing.origin };
        let (x, y) = (crop[0] + (i % drawing.size[0]) as u32, crop[1] + (i / drawing.size[0]) as u32);
        let Bracket { dark, light, ratio, .. } = self.find_bracket(&drawing.candidates, color, drawing.width);
        model::pick(dark, light, ratio, drawing.kind, x, y).unwrap()
    }

    fn is_zero(&self, drawing: &Drawing, reduced: Rgba) -> bool {
        let whole = self.has_slip(Slip::ColorZeroComparesAlpha);
        let equal = |zero: Rgba| if whole { zero == reduced } else { zero[..3] == reduced[..3] };
        !self.has_slip(Slip::ColorZeroDithered) && drawing.zero.is_some_and(equal)
    }

    fn draw_pixel(&self, drawing: &Drawing, cells: &mut [i16], i: usize) -> Chosen {
        let reduced = self.reduce(drawing.from, i);
        let kept = reduced.is_none_or(|c| self.is_zero(drawing, self.asked_for_zero(drawing.from, i, c)));
        if kept && self.has_slip(Slip::SkippedPassesCellOn) && !cells.is_empty() {
            let cell = std::array::from_fn(|k| cells[3 * i + k].into());
            self.scatter(drawing, cells, i, cell);
        }
        let reduced = reduced?;
        if kept {
            return Some((reduced, !self.has_slip(Slip::ColorZeroNotCounted)));
        }
        if self.has_slip(Slip::DithersFirstRowOnly) && i >= drawing.size[0] {
            return Some((reduced, true));
        }
        Some((self.dither_pixel(drawing, cells, i), true))
    }

    /// How many cells are set to 0 before the first pixel.
    fn started(&self, lent: usize) -> usize {
        match self.slip {
            Some(Slip::CellsStartAsLent) => 0,
            // As many bytes as there are cells.
            Some(Slip::HalfOfCellsStarted) => lent / 2,
            _ => lent,
        }
    }

    pub(super) fn draw(&self, drawing: &Drawing, cells: &mut [i16]) -> Vec<Chosen> {
        let started = self.started(cells.len());
        cells[..started].fill(0);
        let chosen = (0..drawing.size[0] * drawing.size[1]).map(|i| self.draw_pixel(drawing, cells, i)).collect();
        if self.has_slip(Slip::AtkinsonCellsInEighths) && drawing.kind == model::ATKINSON {
            cells.iter_mut().for_each(|cell| *cell /= 2);
        }
        chosen
    }

    /// The first tile over its limit, row by row.
    pub(super) fn judge(&self, case: &ToMode, chosen: &[Chosen]) -> Option<u32> {
        let [width, height] = [case.width, case.height];
        let limit = case.limit as usize + usize::from(self.has_slip(Slip::LimitOffByOne));
        let mut tile = 0;
        for top in (0..height).step_by(case.tile[1] as usize) {
            for left in (0..width).step_by(case.tile[0] as usize) {
                let (right, bottom) = (left + case.tile[0], top + case.tile[1]);
                let whole = right <= width && bottom <= height;
                let forgotten = self.has_slip(Slip::EdgeTilesForgotten) && !whole;
                let colors = self.tile_colors(chosen, width, [left, right.min(width)], [top, bottom.min(height)]);
                if colors > limit && !forgotten {
                    return Some(if self.has_slip(Slip::InventsTileNumber) { 0 } else { tile });
                }
                tile += 1;
            }
        }
        None
    }

    fn tile_colors(&self, chosen: &[Chosen], width: u32, xs: [u32; 2], ys: [u32; 2]) -> usize {
        let mut colors = BTreeSet::new();
        for y in ys[0]..ys[1] {
            for x in xs[0]..xs[1] {
                match chosen[(y * width + x) as usize] {
                    Some((color, true)) => _ = colors.insert(color),
                    None if self.has_slip(Slip::TransparentCountsInTile) => _ = colors.insert([0; 4]),
                    _ => {}
                }
            }
        }
        colors.len()
    }

    /// Puts the candidates into their rooms: how many, or none where they do
    /// not fit.
    pub(super) fn collect(&self, from: Reduced, places: &mut [u8], oklab: &mut [f32]) -> Option<Vec<Entry>> {
        let pixels = 0..from.read.pixels.len() / 4;
        let reduced: BTreeSet<Rgba> = pixels.filter_map(|i| self.reduce(from, i)).collect();
        let entries: Vec<Entry> = reduced.into_iter().map(|c| self.entry(from.read, c)).collect();
        if 4 * entries.len() > places.len() {
            self.refuse_with_seven(places, oklab);
            return None;
        }
        for (i, entry) in entries.iter().enumerate() {
            places[4 * i..4 * i + 4].copy_from_slice(&entry.reduced);
            oklab[3 * i..3 * i + 3].copy_from_slice(&entry.oklab);
        }
        if self.has_slip(Slip::PlacesAfterCountCleared) {
            places[4 * entries.len()..].fill(0);
        }
        Some(entries)
    }

    /// The index of what was chosen at pixel `i`.
    pub(super) fn index(&self, drawing: &Drawing, i: usize, color: Rgba) -> u8 {
        if self.has_slip(Slip::IndexOfTwinInBracket) && model::threshold(drawing.kind, 0, 0).is_some() {
            let bracket = self.find_bracket(&drawing.candidates, model::rgb(drawing.pixel(i)), drawing.width);
            if bracket.light == color {
                return bracket.light_position as u8;
            }
        }
        let mut equal =
            drawing.from.read.palette.chunks_exact(4).enumerate().filter(|(_, e)| **e == color).map(|(i, _)| i as u8);
        let index = if self.has_slip(Slip::IndexOfLaterDuplicate) { equal.last() } else { equal.next() };
        // A wrong program may choose a colour that is no entry.
        index.unwrap_or(0)
    }
}
