//! Lists and palettes full of twins: few records, each several times, so that the
//! nearest one has twins too. A search that takes another of them than the
//! original does shows in the positions alone.

use super::maker::Maker;
use super::pictures::Canvas;
use crate::case::List;
use crate::model::{self, Entry};
use crate::original::{Rgba, own_tables, to_oklab};

impl Maker<'_> {
    pub(super) fn wants_twins(&mut self) -> bool {
        self.style.twins > 0 && self.rng.one_in(self.style.twins)
    }

    /// How many different entries there are, and how many in all. The longer lists
    /// are searched by blocks of eight.
    fn few_of_many(&mut self) -> (u64, u64) {
        let large = self.style.large;
        let r = &mut self.rng;
        let few = r.pick(&[1, 2, 3, 5]);
        let length = match r.below(100) {
            0..4 if large => r.within(101, 256),
            4..25 if large => r.within(25, 100),
            25..60 if large => r.within(13, 24),
            _ => r.within(4, 12),
        };
        (few, length.max(2 * few))
    }

    /// Which of so few stands at each of so many places: in blocks, in turn or
    /// scattered.
    fn arranged(&mut self, few: u64, length: u64) -> Vec<usize> {
        let arrangement = self.rng.below(3);
        let mut at = |i: u64| match arrangement {
            0 => i * few / length,
            1 => i % few,
            _ => self.rng.below(few),
        };
        (0..length).map(|i| at(i) as usize).collect()
    }

    /// A reduced colour of the picture, or another of the shift's precision.
    fn reduced_color(&mut self, of_picture: &[Rgba], shift: u32) -> Rgba {
        if !of_picture.is_empty() && !self.rng.one_in(3) {
            return self.rng.pick(of_picture);
        }
        let [r, g, b] = std::array::from_fn(|_| self.rng.byte() & 255 >> shift);
        [r, g, b, 255]
    }

    /// Another alpha, which no search looks at.
    fn with_alpha(&mut self, [r, g, b, _]: Rgba) -> Rgba {
        let random = self.rng.byte();
        [r, g, b, self.rng.pick(&[0, 255, random])]
    }

    /// The different records of a list, as in any list, or as a palette has them:
    /// made from reduced colours, so that equal ones are alike.
    fn few_records(&mut self, few: u64, color: [u8; 3]) -> Vec<Entry> {
        let style = self.rng.below(8);
        let shift = self.rng.within(3, 6) as u32;
        let tables = own_tables(shift, false);
        let mut record = || {
            if style >= 4 {
                return model::entry(&tables, self.reduced_color(&[], shift));
            }
            let (reduced, normalized, oklab) = self.record(style, color);
            Entry { reduced, normalized, oklab }
        };
        (0..few).map(|_| record()).collect()
    }

    /// A twin: the record in whole, or, every other time, with something of its own.
    fn twin(&mut self, entry: Entry, differing: u64) -> Entry {
        let mut twin = entry;
        let (channel, whole) = (self.rng.below(3) as usize, self.rng.one_in(2));
        match differing {
            _ if whole => {}
            0 => [twin.reduced, twin.normalized] = [twin.reduced, twin.normalized].map(|c| self.with_alpha(c)),
            1 => twin.reduced[channel] ^= 1,
            // Of one reduced colour, and yet nearer, farther, lighter or darker.
            2 => {
                twin.normalized[channel] ^= 1 << self.rng.below(6);
                twin.oklab = to_oklab(model::rgb(twin.normalized));
            }
            3 => twin.oklab[channel] = self.good_component(),
            4 => twin.normalized[channel] = self.rng.byte(),
            _ => {}
        }
        twin
    }

    pub(super) fn twin_list(&mut self, color: [u8; 3]) -> List {
        let (few, length) = self.few_of_many();
        let records = self.few_records(few, color);
        let differing = self.rng.below(9);
        let mut list = List::default();
        for k in self.arranged(few, length) {
            let Entry { reduced, normalized, oklab } = self.twin(records[k], differing);
            list.reduced.extend(reduced);
            list.normalized.extend(normalized);
            list.oklab.extend(oklab);
        }
        list
    }

    pub(super) fn twin_palette(&mut self, canvas: &Canvas) -> Vec<u8> {
        let of_picture: Vec<Rgba> = canvas.reduced().into_iter().collect();
        let (few, length) = self.few_of_many();
        let colors: Vec<Rgba> = (0..few).map(|_| self.reduced_color(&of_picture, canvas.shift)).collect();
        let alphas = self.rng.one_in(3);
        let mut palette = Vec::new();
        for k in self.arranged(few, length) {
            let other = alphas && self.rng.one_in(2);
            palette.extend(if other { self.with_alpha(colors[k]) } else { colors[k] });
        }
        palette
    }
}
