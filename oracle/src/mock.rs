//! A port of our own, with which the driver is tried: right by default, and
//! with slips that can be switched on one by one. Each slip is a mistake that a
//! port could make; the driver must notice every one. Here are the calls; what
//! they do stands in the modules.

mod choose;
mod draw;
mod reduce;
mod refuse;
mod slip;

pub use slip::{Mock, Slip};

use crate::case::{Candidates, PickCase, Quantize, ToMode};
use crate::model;
use crate::port::{BracketRooms, Lists, Port, Read, Rooms};
use choose::rgba;
use draw::Drawing;
use reduce::Reduced;

impl Port for Mock {
    fn to_oklab(&self, color: [u8; 3], lab: [&mut f32; 3]) {
        if self.writes(0) {
            lab.into_iter().zip(self.convert(color)).for_each(|(to, value)| *to = value);
        }
    }

    fn oklab_sqdist(&self, six: [f32; 6], distance: &mut f32) -> u32 {
        let number = self.say(&[(six.iter().any(|&v| self.outside(v)), 6)]);
        if self.writes(number) {
            *distance = self.distance([six[0], six[1], six[2]], [six[3], six[4], six[5]]);
        }
        number
    }

    fn ordered_threshold(&self, kind: u32, x: u32, y: u32, threshold: &mut f32) -> u32 {
        let found = model::threshold(self.drawn_as(kind), x, y);
        let number = self.say(&[(self.unknown(kind), 1), (self.retired(kind), 15), (found.is_none(), 9)]);
        if self.writes(number) {
            *threshold = found.unwrap();
        }
        number
    }

    fn bracket_width(&self, shift: u32, max: u64, width: &mut u64) -> u32 {
        let last = match self.slip {
            Some(Slip::WidthOfSixRefused) => 5,
            Some(Slip::WidthOfSevenAccepted) => 7,
            _ => 6,
        };
        let number = self.say(&[(!(3..=last).contains(&shift), 1)]);
        if self.writes(number) {
            *width = self.bracket_width_of(shift, max);
        }
        number
    }

    fn lerp(&self, [c1, c2, color]: [[u8; 3]; 3], clamp: u32) -> f32 {
        self.lerp(c1, c2, color, self.flag(clamp))
    }

    fn nearest(&self, lists: Lists, color: [u8; 3], position: &mut u32) -> u32 {
        let number = self.list_number(lists, false);
        if self.writes(number) {
            *position = self.find_nearest(&self.entries(lists), color) as u32;
        }
        number
    }

    fn nearest_two(&self, lists: Lists, color: [u8; 3], width: u64, first: &mut u32, second: &mut u32) -> u32 {
        let number = self.list_number(lists, false);
        if self.writes(number) {
            let (a, b) = self.find_two(&self.entries(lists), color, width);
            (*first, *second) = (a as u32, b.unwrap_or(a) as u32);
        }
        number
    }

    fn ordered_bracket(&self, lists: Lists, color: [u8; 3], width: u64, rooms: BracketRooms) -> u32 {
        let number = self.list_number(lists, rooms.dark.len() != 4 || rooms.light.len() != 4);
        if self.writes(number) {
            let list = self.entries(lists);
            let bracket = self.find_bracket(&list, color, width);
            rooms.dark.copy_from_slice(&bracket.dark);
            rooms.light.copy_from_slice(&bracket.light);
            *rooms.ratio = bracket.ratio;
            if list.len() > 1 || !self.has_slip(Slip::OneEntryHasNoPositions) {
                [*rooms.dark_position, *rooms.light_position] = self.positions(&list, color, width, &bracket);
            }
        } else if number != 0 {
            self.leave(number, rooms.dark);
            if self.has_slip(Slip::RefusalWritesPositions) {
                [*rooms.dark_position, *rooms.light_position] = [0, 0];
            }
        }
        number
    }

    fn pick(&self, case: &PickCase, dark: &[u8], light: &[u8], chosen: &mut [u8]) -> u32 {
        let fit = dark.len() == 4 && light.len() == 4 && chosen.len() == 4;
        let threshold = model::threshold(self.drawn_as(case.kind), case.x, case.y);
        let equal = self.has_slip(Slip::PickAcceptsEqualColors) && dark == light;
        let number = self.say(&[
            (self.unknown(case.kind), 1),
            (self.retired(case.kind), 15),
            (!fit, 3),
            (threshold.is_none() && !equal, 9),
        ]);
        if self.writes(number) {
            let lighter = dark != light && case.ratio > threshold.unwrap_or(0.0);
            chosen.copy_from_slice(if lighter { light } else { dark });
        } else if number != 0 {
            self.leave(number, chosen);
        }
        number
    }

    fn candidate_colors_in(
        &self,
        case: &Candidates,
        read: Read,
        places: &mut [u8],
        oklab: &mut [f32],
        count: &mut u32,
    ) -> u32 {
        let pixels = case.width as usize * case.height as usize;
        let fit = read.reduction.len() == 256
            && read.scale.len() == 256
            && read.pixels.len() == 4 * pixels
            && self.opaque_fits(read.opaque.len(), case.reducing, pixels)
            && self.rooms_fit(places, oklab);
        let number = self.say(&[
            (self.unpaired(case.shift, case.reducing), 1),
            (self.size_wrong(case.width, case.height), 2),
            (!fit, 3),
        ]);
        if !self.writes(number) {
            if number != 0 {
                self.leave(number, places);
            }
            return number;
        }
        match self.collect(Reduced { reducing: self.reducing_of(case.reducing), read }, places, oklab) {
            Some(entries) => *count = entries.len() as u32,
            None => return 7,
        }
        0
    }

    fn quantize_pixels(
        &self,
        case: &Quantize,
        read: Read,
        indices: &mut [u8],
        out: &mut [u8],
        cells: &mut [i16],
    ) -> u32 {
        let number = self.quantize_number(case, read, [indices.len(), out.len(), cells.len()]);
        if !self.writes(number) {
            if number != 0 {
                self.leave(number, out);
                self.leave_cells(number, cells);
            }
            return number;
        }
        let entries = 0..read.palette.len() / 4;
        let drawing = Drawing {
            kind: self.drawn_as(case.kind),
            size: [case.width as usize, case.height as usize],
            origin: [0, 0],
            zero: None,
            from: Reduced { reducing: self.reducing_of(case.reducing), read },
            candidates: entries.map(|i| self.entry(read, rgba(read.palette, i))).collect(),
            width: self.bracket_width_of(case.shift, read.palette.len() as u64 / 4),
        };
        for (i, chosen) in self.draw(&drawing, cells).into_iter().enumerate() {
            let by_alpha = self.has_slip(Slip::TransparentEntryAsTransparentPixel);
            let color = chosen.map(|c| c.0).filter(|c| !by_alpha || c[3] != 0);
            indices[i] = color.map_or(0, |c| self.index(&drawing, i, c));
            out[4 * i..4 * i + 4].copy_from_slice(&color.map_or([0; 4], |c| drawing.normalized(c)));
        }
        0
    }

    fn dither_to_mode(&self, case: &ToMode, read: Read, rooms: Rooms, count: &mut u32, tile: &mut u32) -> u32 {
        let number = self.to_mode_number(case, read, &rooms);
        if !self.writes(number) {
            if number != 0 {
                self.leave(number, rooms.out);
                self.leave_cells(number, rooms.cells);
            }
            return number;
        }
        let from = Reduced { reducing: self.reducing_of(case.reducing), read };
        let Some(candidates) = self.collect(from, rooms.places, rooms.oklab) else {
            self.leave_cells(7, rooms.cells);
            return 7;
        };
        let found = candidates.len();
        let drawing = Drawing {
            kind: self.drawn_as(case.kind),
            size: [case.width as usize, case.height as usize],
            origin: case.origin.map(|o| if self.has_slip(Slip::OriginOverflowAccepted) { o & 0xffff } else { o }),
            zero: self.flag(case.has_zero).then_some(case.zero),
            from,
            candidates,
            width: self.bracket_width_of(case.shift, u64::from(case.limit)),
        };
        let chosen = self.draw(&drawing, rooms.cells);
        for (i, c) in chosen.iter().enumerate() {
            rooms.out[4 * i..4 * i + 4].copy_from_slice(&c.map_or([0; 4], |c| drawing.normalized(c.0)));
        }
        let over = self.judge(case, &chosen);
        if over.is_none() || !self.has_slip(Slip::EightWritesNoCount) {
            *count = found as u32;
        }
        let Some(over) = over else {
            return 0;
        };
        *tile = over;
        self.refuse_with_eight(rooms);
        8
    }
}
