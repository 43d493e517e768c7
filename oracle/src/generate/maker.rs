//! What kind of cases are wanted, and the small random parts that cases of every
//! call are made of.

use crate::cells::LARGEST;
use crate::hooks::Tables;
use crate::model::PAIRINGS;
use crate::rng::Rng;

/// What kind of cases are wanted.
#[derive(Debug, Clone, Copy)]
pub struct Style {
    /// No NaN and no infinity anywhere, for the recorded list.
    pub finite: bool,
    /// Sides of usual pictures go up to this.
    pub side: u64,
    /// Now and then long lists, large pictures and full rooms.
    pub large: bool,
    /// One in so many lists and palettes is full of twins; 0 where none is.
    pub twins: u64,
}

impl Style {
    pub const DRIVER: Style = Style { finite: false, side: 24, large: true, twins: 3 };
    pub const RECORDER: Style = Style { finite: true, side: 5, large: false, twins: 0 };
    pub const RECORDER_OF_TWINS: Style = Style { twins: 1, ..Style::RECORDER };
    /// Smaller, since the opaque pixels come on top.
    pub const RECORDER_OF_GREYS: Style = Style { side: 4, ..Style::RECORDER };
}

/// How pictures are reduced, where that is given.
#[derive(Clone, Copy)]
pub struct Fixed<'a> {
    pub shift: u32,
    pub reducing: u32,
    pub tables: &'a Tables,
}

/// Makes one case.
pub(super) struct Maker<'a> {
    pub(super) rng: Rng,
    pub(super) style: Style,
    pub(super) fixed: Option<Fixed<'a>>,
}

impl Maker<'_> {
    pub(super) fn rgb(&mut self) -> [u8; 3] {
        let r = &mut self.rng;
        match r.below(6) {
            0 => [r.byte(); 3],
            1 => std::array::from_fn(|_| r.pick(&[0, 255])),
            2 => std::array::from_fn(|_| r.below(12) as u8),
            _ => std::array::from_fn(|_| r.byte()),
        }
    }

    /// One of the eleven kinds. Two of them are retired, so that 15 and what it
    /// hides are asked for as often as other refusals.
    pub(super) fn kind(&mut self) -> u32 {
        self.rng.below(11) as u32
    }

    pub(super) fn bad_kind(&mut self) -> u32 {
        let random = self.rng.within(11, u64::from(u32::MAX)) as u32;
        self.rng.pick(&[11, 12, 256, 265, u32::MAX, 0x8000_0001, random])
    }

    pub(super) fn bad_shift(&mut self) -> u32 {
        let random = self.rng.u32() | 8;
        self.rng.pick(&[0, 1, 2, 7, 8, 16, 259, u32::MAX, 0x8000_0003, random])
    }

    /// A shift with a reduction that does not go with it: mostly there are modes of the
    /// one and modes of the other, else none at all of one of the two. The recorded list
    /// has no numbers of reductions that there are not.
    pub(super) fn bad_pairing(&mut self) -> [u32; 2] {
        let [shift, reducing] = self.rng.pick(&PAIRINGS);
        let random = self.rng.u32() | 4;
        match self.rng.below(6) {
            0 => [self.bad_shift(), reducing],
            1 | 2 if !self.style.finite => {
                [shift, self.rng.pick(&[3, 4, 255, 256, 257, 258, u32::MAX, 0x8000_0000, 0x8000_0001, random])]
            }
            _ => self.rng.pick(&[[3, 1], [3, 2], [4, 1], [4, 2], [5, 2], [6, 0]]),
        }
    }

    pub(super) fn coordinate(&mut self) -> u32 {
        let r = &mut self.rng;
        match r.below(4) {
            0 => r.below(20) as u32,
            1 => u32::MAX - r.below(20) as u32,
            _ => r.u32(),
        }
    }

    /// A component that a lookup takes.
    pub(super) fn good_component(&mut self) -> f32 {
        let r = &mut self.rng;
        match r.below(8) {
            0 => r.pick(&[-2.0, 2.0, 0.0, -0.0, 1.0, -1.0, 0.5]),
            1 => r.pick(&[f32::from_bits(2.0f32.to_bits() - 1), f32::MIN_POSITIVE, 1e-40, -1e-40, f32::EPSILON]),
            2 => r.pick(&[-1.0, -0.5, 0.0, 0.5, 1.0]),
            3..=4 => r.within(0, 2_000_000) as f32 / 1_000_000.0 - 1.0,
            _ => 4.0 * r.unit() - 2.0,
        }
    }

    /// A component that is refused.
    pub(super) fn bad_component(&mut self) -> f32 {
        let two = 2.0f32.to_bits();
        let bits = [two + 1, (-2.0f32).to_bits() + 1, f32::MAX.to_bits(), 2.5f32.to_bits(), (-1e9f32).to_bits()];
        let special = [
            f32::INFINITY.to_bits(),
            f32::NEG_INFINITY.to_bits(),
            f32::NAN.to_bits(),
            0x7f80_0001,
            0xffc0_0000,
            0xffff_ffff,
            0x7fbf_ffff,
        ];
        if self.style.finite || self.rng.one_in(2) {
            return f32::from_bits(self.rng.pick(&bits));
        }
        f32::from_bits(self.rng.pick(&special))
    }

    /// What a lent f32 buffer holds before a call.
    pub(super) fn rubbish_floats(&mut self, count: usize) -> Vec<f32> {
        let finite = self.style.finite;
        let r = &mut self.rng;
        (0..count)
            .map(|_| match r.below(4) {
                0 | 1 if !finite => f32::from_bits(0x7f80_0001 | r.u32() & 0x807f_ffff),
                2 => r.within(0, 8160) as f32 / 16.0 - 255.0,
                // The exponent stays below that of NaN and infinity.
                _ => f32::from_bits(r.u32() & 0xbfff_ffff),
            })
            .collect()
    }

    /// What lent cells hold before a call: any 16 bits, their ends and what a picture
    /// can leave among them. As many random words are taken as for a float, so that all
    /// else in a case is as it was when cells were floats.
    pub(super) fn rubbish_cells(&mut self, count: usize) -> Vec<i16> {
        let r = &mut self.rng;
        (0..count)
            .map(|_| match r.below(4) {
                0 => r.pick(&[i16::MIN, i16::MAX, -1, 1, -LARGEST - 1, LARGEST + 1, 255, -256]),
                1 => r.within(0, 2 * LARGEST as u64) as i16 - LARGEST,
                _ => r.u32() as i16,
            })
            .collect()
    }

    /// Elements more or fewer than fit.
    pub(super) fn misfit<T: Clone>(&mut self, buffer: &mut Vec<T>, each: usize, filler: T) {
        let step = self.rng.pick(&[1, each, 2 * each + 1]);
        let fewer = self.rng.one_in(2) && buffer.len() >= step;
        let length = if fewer { buffer.len() - step } else { buffer.len() + step };
        buffer.resize(length, filler);
    }
}
