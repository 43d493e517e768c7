//! Random cases of the calls on single values.

use super::maker::Maker;
use crate::case::{Case, PickCase};
use crate::model;

impl Maker<'_> {
    pub(super) fn oklab_sqdist(&mut self) -> Case {
        let mut six: [f32; 6] = std::array::from_fn(|_| self.good_component());
        if self.rng.one_in(8) {
            six.copy_within(0..3, 3);
        }
        if self.rng.one_in(4) {
            for _ in 0..self.rng.within(1, 2) {
                six[self.rng.below(6) as usize] = self.bad_component();
            }
        }
        Case::OklabSqdist(six)
    }

    pub(super) fn ordered_threshold(&mut self) -> Case {
        let kind = if self.rng.one_in(8) { self.bad_kind() } else { self.kind() };
        Case::OrderedThreshold { kind, x: self.coordinate(), y: self.coordinate() }
    }

    pub(super) fn bracket_width(&mut self) -> Case {
        let shift = if self.rng.one_in(8) { self.bad_shift() } else { self.rng.within(3, 6) as u32 };
        let power = 1u64 << self.rng.below(64);
        let max = match self.rng.below(4) {
            0 => power.wrapping_add(self.rng.below(5)).wrapping_sub(2),
            1 => self.rng.word(),
            _ => self.rng.below(300),
        };
        Case::BracketWidth { shift, max }
    }

    pub(super) fn lerp(&mut self) -> Case {
        let mut colors: [[u8; 3]; 3] = std::array::from_fn(|_| self.rgb());
        match self.rng.below(6) {
            0 => colors[1] = colors[0],
            1 => colors[2] = colors[self.rng.below(2) as usize],
            // One channel apart, where signed zeros arise.
            2 => {
                let (one, from) = (self.rng.below(3) as usize, self.rng.byte());
                colors = [[from; 3]; 3];
                colors[1][one] = self.rng.byte();
                colors[2][self.rng.below(3) as usize] = self.rng.byte();
            }
            3 => {
                let [a, b] = [self.rng.byte(), self.rng.byte()];
                colors = [[a; 3], [b; 3], [self.rng.pick(&[a, b]); 3]];
            }
            _ => {}
        }
        let large = if self.style.finite { 255 } else { 0x1_0000 };
        Case::Lerp { colors, clamp: self.rng.pick(&[0, 0, 1, 1, 2, 128, large]) }
    }

    pub(super) fn pick(&mut self) -> Case {
        let dark: [u8; 4] = std::array::from_fn(|_| self.rng.byte());
        let mut light = dark;
        if !self.rng.one_in(4) {
            light[self.rng.below(4) as usize] = self.rng.byte();
        }
        let kind = if self.rng.one_in(10) { self.bad_kind() } else { self.kind() };
        let (x, y) = (self.coordinate(), self.coordinate());
        let exact = model::threshold(kind, x, y).unwrap_or(0.5);
        let ratio = match self.rng.below(6) {
            0 => self.rng.pick(&[0.0, -0.0, 1.0, -1.0, f32::MAX, 2.0]),
            1 if !self.style.finite => {
                self.rng.pick(&[f32::NAN, f32::INFINITY, f32::NEG_INFINITY, f32::from_bits(0xff80_0001)])
            }
            2 => exact,
            3 => f32::from_bits(exact.to_bits() + 1),
            _ => self.rng.unit(),
        };
        let mut buffers = [dark.to_vec(), light.to_vec(), self.rng.bytes(4)];
        // The recorded list has colours of four bytes only.
        if !self.style.finite && self.rng.one_in(6) {
            for _ in 0..self.rng.within(1, 2) {
                let length = self.rng.pick(&[0, 3, 5, 8]);
                buffers[self.rng.below(3) as usize].resize(length, 0x5a);
            }
        }
        let [dark, light, chosen] = buffers;
        Case::Pick(PickCase { dark, light, ratio, kind, x, y, chosen })
    }
}
