//! Random cases of the lookups: lists of many lengths and styles, twins and
//! equal distances among them, and lists that are refused.

use super::maker::Maker;
use crate::case::{Case, List, Lookup};
use crate::original::to_oklab;

impl Maker<'_> {
    fn list_length(&mut self) -> u64 {
        let large = self.style.large;
        let r = &mut self.rng;
        match r.below(4000) {
            0 if large => 65_536,
            1 if large => 65_537,
            2..40 if large => r.within(1000, 4000),
            40..300 if large => r.within(100, 600),
            300..400 => 0,
            400..600 => 1,
            600..1600 if large => r.within(9, 40),
            600..900 => r.within(14, 22),
            _ => r.within(1, 9),
        }
    }

    /// A record; its normalised colour need not be the scale of its reduced one,
    /// nor its Oklab the conversion of either.
    pub(super) fn record(&mut self, style: u64, middle: [u8; 3]) -> ([u8; 4], [u8; 4], [f32; 3]) {
        let reduced = std::array::from_fn(|_| self.rng.byte() & 31);
        let [r, g, b] = match style {
            0 => middle.map(|v| v.saturating_add(self.rng.below(40) as u8).saturating_sub(20)),
            _ => self.rgb(),
        };
        let normalized = [r, g, b, self.rng.pick(&[0, 255])];
        let oklab = match style {
            0 | 1 => to_oklab([r, g, b]),
            // A coarse grid has many equal distances.
            2 => std::array::from_fn(|_| self.rng.pick(&[0.0, 0.25, 0.5, -0.25])),
            _ => std::array::from_fn(|_| self.good_component()),
        };
        (reduced, normalized, oklab)
    }

    fn list(&mut self, color: [u8; 3]) -> List {
        let length = self.list_length();
        let style = self.rng.below(4);
        let distinct = self.rng.pick(&[1, 2, 3, 6, length.max(1), length.max(1)]);
        let pool: Vec<_> = (0..distinct).map(|_| self.record(style, color)).collect();
        let mut list = List::default();
        for _ in 0..length {
            let (mut reduced, normalized, oklab) = self.rng.pick(&pool);
            // A twin with a reduced colour of its own.
            if self.rng.one_in(6) {
                reduced[2] ^= 1;
            }
            list.reduced.extend(reduced);
            list.normalized.extend(normalized);
            list.oklab.extend(oklab);
        }
        list
    }

    fn spoil_list(&mut self, list: &mut List) {
        for _ in 0..self.rng.within(1, 3) {
            match self.rng.below(5) {
                0 => self.misfit(&mut list.reduced, 4, 9),
                1 => self.misfit(&mut list.normalized, 4, 9),
                2 => self.misfit(&mut list.oklab, 3, 0.5),
                _ if !list.oklab.is_empty() => {
                    let last = list.oklab.len() as u64 - 1;
                    let random = self.rng.within(0, last);
                    let at = self.rng.pick(&[0, last, random]);
                    list.oklab[at as usize] = self.bad_component();
                }
                _ => {}
            }
        }
    }

    pub(super) fn lookup(&mut self) -> Lookup {
        let mut color = self.rgb();
        let mut list = if self.wants_twins() { self.twin_list(color) } else { self.list(color) };
        if self.rng.one_in(3) && !list.normalized.is_empty() {
            let at = 4 * self.rng.below(list.normalized.len() as u64 / 4) as usize;
            color.copy_from_slice(&list.normalized[at..at + 3]);
        }
        if self.rng.one_in(12) && list.normalized.len() >= 8 {
            color = self.descend(&mut list);
        }
        if self.rng.one_in(4) {
            self.spoil_list(&mut list);
        }
        let random = self.rng.word();
        let usual = self.rng.within(1, 17);
        let width = self.rng.pick(&[0, 1, 2, 3, 16, 17, 1 << 32, u64::MAX, random, usual, usual, usual, usual]);
        Lookup { list, color, width }
    }

    /// A colour that is the first record, with the second one below it in every
    /// channel and yet lighter: the ratio is then minus zero.
    fn descend(&mut self, list: &mut List) -> [u8; 3] {
        let color: [u8; 3] = std::array::from_fn(|_| self.rng.byte() | 1);
        let [l, a, b] = to_oklab(color);
        list.normalized[..3].copy_from_slice(&color);
        list.normalized[4..7].copy_from_slice(&color.map(|v| v / 2));
        list.oklab[..6].copy_from_slice(&[l, a, b, l + 1e-3, a, b]);
        color
    }

    pub(super) fn ordered_bracket(&mut self) -> Case {
        let lookup = self.lookup();
        let mut buffers = [self.rng.bytes(4), self.rng.bytes(4)];
        if !self.style.finite && self.rng.one_in(8) {
            let length = self.rng.pick(&[0, 3, 5, 8]);
            buffers[self.rng.below(2) as usize].resize(length, 0x5a);
        }
        let [dark, light] = buffers;
        Case::OrderedBracket { lookup, dark, light }
    }
}
