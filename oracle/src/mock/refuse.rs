//! What the mock refuses, with which number, and what a refusal does to the lent
//! buffers.

use std::cmp::Reverse;

use super::slip::{Mock, Slip};
use crate::case::{Quantize, ToMode};
use crate::model::{self, BY_ALPHA, GREY, OPAQUE_COLOR, is_retired};
use crate::port::{Lists, Read, Rooms};

impl Mock {
    /// The number said for a list of tests in the order of the call's replies: the
    /// first, save with the slips that put them in another order.
    pub(super) fn say(&self, tests: &[(bool, u32)]) -> u32 {
        let mut said: Vec<u32> = tests.iter().filter(|t| t.0).map(|t| t.1).collect();
        match self.slip {
            Some(Slip::HighestNumberFirst) => said.sort_by_key(|&number| Reverse(number)),
            Some(Slip::LowestNumberFirst) => said.sort(),
            Some(Slip::FifteenBeforeOne) => said.sort_by_key(|&number| number != 15),
            Some(Slip::FifteenAfterTwo) => said.sort_by_key(|&number| (number > 2, number != 15)),
            _ => {}
        }
        let number = said.first().copied();
        if self.has_slip(Slip::RefusesEverything) { number.unwrap_or(3) } else { number.unwrap_or(0) }
    }

    /// Whether there is no such kind.
    pub(super) fn unknown(&self, kind: u32) -> bool {
        kind > 10 || self.has_slip(Slip::RetiredKindUnknown) && is_retired(kind)
    }

    /// Whether the kind is retired, and no slip has it drawn.
    pub(super) fn retired(&self, kind: u32) -> bool {
        let drawn = match self.slip {
            Some(Slip::StippleHDrawn) => kind == 6,
            Some(Slip::StippleVGivenToLineV) => kind == 5,
            _ => false,
        };
        is_retired(kind) && !drawn
    }

    /// The reduction by which a number is drawn: its own, save with slips that read it
    /// otherwise or take what is none for one.
    pub(super) fn reducing_of(&self, number: u32) -> u32 {
        match self.slip {
            Some(Slip::ReductionReadAsByte) => number & 255,
            Some(Slip::UnknownReductionByAlpha) if number > OPAQUE_COLOR => BY_ALPHA,
            _ => number,
        }
    }

    /// Whether no mode of the shift reduces so.
    pub(super) fn unpaired(&self, shift: u32, reducing: u32) -> bool {
        let too_many = match self.slip {
            Some(Slip::GreyWithShiftFour) => Some((4, GREY)),
            Some(Slip::OpaqueColorWithShiftFive) => Some((5, OPAQUE_COLOR)),
            Some(Slip::ByAlphaWithShiftSix) => Some((6, BY_ALPHA)),
            _ => None,
        };
        let pair = (shift, self.reducing_of(reducing));
        too_many != Some(pair) && !matches!(pair, (3..6, BY_ALPHA) | (5..7, GREY) | (6, OPAQUE_COLOR))
    }

    /// The first tests of a call on pictures that takes a kind: 1, for either reason, and 15
    /// after it.
    fn kind_tests(&self, kind: u32, shift: u32, reducing: u32) -> [(bool, u32); 3] {
        let (unknown, unpaired) = ((self.unknown(kind), 1), (self.unpaired(shift, reducing), 1));
        let retired = (self.retired(kind), 15);
        if self.has_slip(Slip::PairingAfterFifteen) {
            [unknown, retired, unpaired]
        } else {
            [unknown, unpaired, retired]
        }
    }

    /// Whether so many bytes of opaque pixels are those of a picture of so many pixels.
    pub(super) fn opaque_fits(&self, lent: usize, reducing: u32, count: usize) -> bool {
        let by_alpha = self.reducing_of(reducing) == BY_ALPHA;
        match self.slip {
            Some(Slip::OpaqueLengthUnasked) => true,
            Some(Slip::MoreOpaqueAccepted) if !by_alpha => lent >= 4 * count,
            Some(Slip::OpaqueByAlphaAccepted) if by_alpha => true,
            Some(Slip::OpaqueByAlphaWanted) => lent == 4 * count,
            _ => lent == if by_alpha { 0 } else { 4 * count },
        }
    }

    /// Whether results are written for this number.
    pub(super) fn writes(&self, number: u32) -> bool {
        number == 0 && !self.has_slip(Slip::WritesNothing)
    }

    pub(super) fn outside(&self, value: f32) -> bool {
        match self.slip {
            Some(Slip::RefusesExactlyTwo) => !(value > -2.0 && value < 2.0),
            Some(Slip::AcceptsNan) => value < -2.0 || value > 2.0,
            _ => !(value >= -2.0 && value <= 2.0),
        }
    }

    pub(super) fn list_number(&self, lists: Lists, other: bool) -> u32 {
        let n = lists.reduced.len() / 4;
        let fit = lists.reduced.len() % 4 == 0 && lists.normalized.len() == 4 * n && lists.oklab.len() == 3 * n;
        self.say(&[(!fit || other, 3), (n == 0 || n > 1 << 16, 4), (lists.oklab.iter().any(|&v| self.outside(v)), 6)])
    }

    pub(super) fn size_wrong(&self, width: u32, height: u32) -> bool {
        width > 4096 || height > 4096 || width as u64 * height as u64 > 1 << 20
    }

    fn origin_wrong(&self, case: &ToMode) -> bool {
        let over =
            case.origin[0].checked_add(case.width).is_none() || case.origin[1].checked_add(case.height).is_none();
        over && !self.has_slip(Slip::OriginOverflowAccepted)
    }

    /// Whether so many cells are those of a picture of so many pixels.
    fn cells_fit(&self, lent: usize, kind: u32, count: usize) -> bool {
        let wanted = if model::is_diffusion(kind) { 3 * count } else { 0 };
        match self.slip {
            Some(Slip::CellsMeasuredInBytes) => lent == size_of::<i16>() * wanted,
            Some(Slip::MoreCellsAccepted) => lent >= wanted,
            _ => lent == wanted,
        }
    }

    pub(super) fn quantize_number(&self, case: &Quantize, read: Read, [indices, out, cells]: [usize; 3]) -> u32 {
        let count = case.width as usize * case.height as usize;
        let fit = read.reduction.len() == 256
            && read.scale.len() == 256
            && read.pixels.len() == 4 * count
            && self.opaque_fits(read.opaque.len(), case.reducing, count)
            && read.palette.len() % 4 == 0
            && [indices, out] == [count, 4 * count]
            && self.cells_fit(cells, case.kind, count);
        let [first, second, third] = self.kind_tests(case.kind, case.shift, case.reducing);
        self.say(&[
            first,
            second,
            third,
            (self.size_wrong(case.width, case.height), 2),
            (!fit, 3),
            (read.palette.len() < 4 || read.palette.len() / 4 > 256, 4),
        ])
    }

    pub(super) fn to_mode_number(&self, case: &ToMode, read: Read, rooms: &Rooms) -> u32 {
        let count = case.width as usize * case.height as usize;
        let fit = read.reduction.len() == 256
            && read.scale.len() == 256
            && read.pixels.len() == 4 * count
            && self.opaque_fits(read.opaque.len(), case.reducing, count)
            && rooms.out.len() == 4 * count
            && self.cells_fit(rooms.cells.len(), case.kind, count)
            && self.rooms_fit(rooms.places, rooms.oklab);
        let sides = case.tile.iter().all(|&side| side > 0 && side <= 4096);
        let [first, second, third] = self.kind_tests(case.kind, case.shift, case.reducing);
        self.say(&[
            first,
            second,
            third,
            (self.size_wrong(case.width, case.height) || self.origin_wrong(case), 2),
            (!fit, 3),
            (!sides || case.limit > 256, 5),
        ])
    }

    pub(super) fn rooms_fit(&self, places: &[u8], oklab: &[f32]) -> bool {
        places.len() % 4 == 0 && places.len() <= 4 << 16 && 4 * oklab.len() == 3 * places.len()
    }

    pub(super) fn flag(&self, flag: u32) -> bool {
        if self.has_slip(Slip::FlagReadAsByte) { flag as u8 != 0 } else { flag != 0 }
    }

    /// What a refusal does to a buffer: nothing, save with the slips for it.
    pub(super) fn leave(&self, number: u32, buffer: &mut [u8]) {
        let fifteen = number == 15 && self.has_slip(Slip::FifteenChangesBuffers);
        if fifteen || self.has_slip(Slip::RefusalChangesBuffers) {
            buffer.fill(0);
        }
    }

    /// The same for cells, which the slips for it clear before the call is refused.
    pub(super) fn leave_cells(&self, number: u32, cells: &mut [i16]) {
        let seven = number == 7 && self.has_slip(Slip::SevenClearsCells);
        if seven || number != 7 && self.has_slip(Slip::RefusalClearsCells) {
            cells.fill(0);
        }
    }

    pub(super) fn refuse_with_seven(&self, places: &mut [u8], oklab: &mut [f32]) {
        if !self.has_slip(Slip::SevenLeavesPlaces) {
            places.fill(0);
        }
        if self.has_slip(Slip::SevenClearsOklab) {
            oklab.fill(0.0);
        }
    }

    pub(super) fn refuse_with_eight(&self, rooms: Rooms) {
        if !self.has_slip(Slip::EightLeavesPixels) {
            rooms.out.fill(0);
        }
        let cleared = match self.slip {
            Some(Slip::EightLeavesCells) => 0,
            // As many bytes as there are cells.
            Some(Slip::EightClearsHalfOfCells) => rooms.cells.len() / 2,
            _ => rooms.cells.len(),
        };
        rooms.cells[..cleared].fill(0);
        if self.has_slip(Slip::EightClearsCandidates) {
            rooms.places.fill(0);
        }
    }
}
