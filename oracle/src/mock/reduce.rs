//! How the mock reduces a pixel: by alpha, to a grey, or as its opaque colour.

use super::choose::rgba;
use super::slip::{Mock, Slip};
use crate::model::{self, BY_ALPHA, GREY, OPAQUE_COLOR};
use crate::original::Rgba;
use crate::port::Read;

/// A picture's buffers, with the reduction by which it is drawn.
#[derive(Clone, Copy)]
pub(super) struct Reduced<'a> {
    pub(super) reducing: u32,
    pub(super) read: Read<'a>,
}

impl Reduced<'_> {
    /// The opaque pixel; with a slip that does not ask for the length there may be none.
    pub(super) fn opaque(&self, i: usize) -> Rgba {
        if self.read.opaque.len() < 4 * i + 4 { [0; 4] } else { rgba(self.read.opaque, i) }
    }

    fn channels(&self, color: [u8; 3]) -> [u8; 3] {
        color.map(|v| self.read.reduction[usize::from(v)])
    }
}

impl Mock {
    /// Luma in f32, the terms in the order of the channels, and cut.
    fn luma(&self, color: [u8; 3]) -> u8 {
        let weights = [0.2126f32, 0.7152, 0.0722];
        let shares = color.map(|v| f32::from(v) / 255.0);
        let [r, g, b]: [f32; 3] = std::array::from_fn(|k| shares[k] * weights[k]);
        let sum = match self.slip {
            Some(Slip::LumaTermsInAnotherOrder) => b + g + r,
            Some(Slip::LumaFused) => shares[2].mul_add(weights[2], shares[1].mul_add(weights[1], r)),
            Some(Slip::LumaInDoubles) => return luma_in_doubles(color),
            Some(Slip::LumaInWholeNumbers) => return luma_in_whole_numbers(color),
            _ => r + g + b,
        };
        let luma = 255.0 * sum;
        if self.has_slip(Slip::LumaRounded) { luma.round() as u8 } else { luma as u8 }
    }

    /// The three channels of a grey pixel.
    fn grey(&self, from: Reduced, color: [u8; 3]) -> [u8; 3] {
        if self.has_slip(Slip::LumaOfReducedChannels) {
            return [self.luma(from.channels(color)); 3];
        }
        let grey = from.channels([self.luma(color); 3]);
        if self.has_slip(Slip::GreyInOneChannel) { [grey[0], 0, 0] } else { grey }
    }

    /// The pixel that is reduced, where that is not by alpha.
    fn looked_at(&self, from: Reduced, i: usize) -> Rgba {
        let itself = match self.slip {
            Some(Slip::GreyOfThePixelItself) => from.reducing == GREY,
            Some(Slip::OpaqueColorOfThePixelItself) => from.reducing == OPAQUE_COLOR,
            _ => false,
        };
        if itself { rgba(from.read.pixels, i) } else { from.opaque(i) }
    }

    fn is_transparent(&self, from: Reduced, i: usize) -> bool {
        let alpha = rgba(from.read.pixels, i)[3];
        match (from.reducing, self.slip) {
            (BY_ALPHA, Some(Slip::Alpha127Opaque)) => alpha < 127,
            (BY_ALPHA, _) => alpha < 128,
            (GREY, Some(Slip::TransparentStaysInGrey)) => alpha < 128,
            (OPAQUE_COLOR, Some(Slip::TransparentStaysInOpaqueColor)) => alpha < 128,
            (_, Some(Slip::OpaqueAlphaRead)) => from.opaque(i)[3] < 128,
            _ => false,
        }
    }

    /// Pixel `i` reduced; none where it is transparent.
    pub(super) fn reduce(&self, from: Reduced, i: usize) -> Option<Rgba> {
        let pixel = rgba(from.read.pixels, i);
        let [r, g, b] = match from.reducing {
            BY_ALPHA => from.channels(model::rgb(pixel)),
            GREY => self.grey(from, model::rgb(self.looked_at(from, i))),
            _ => from.channels(model::rgb(self.looked_at(from, i))),
        };
        let alpha = if self.has_slip(Slip::GreyAlphaFromSource) && from.reducing == GREY { pixel[3] } else { 255 };
        (!self.is_transparent(from, i)).then_some([r, g, b, alpha])
    }

    /// What is asked whether it is colour zero: the reduced colour.
    pub(super) fn asked_for_zero(&self, from: Reduced, i: usize, reduced: Rgba) -> Rgba {
        if !self.has_slip(Slip::ZeroAskedOfThePixelItself) {
            return reduced;
        }
        let [r, g, b] = from.channels(model::rgb(rgba(from.read.pixels, i)));
        [r, g, b, reduced[3]]
    }
}

fn luma_in_doubles([r, g, b]: [u8; 3]) -> u8 {
    let [r, g, b] = [r, g, b].map(|v| f64::from(v) / 255.0);
    (255.0 * (0.2126 * r + 0.7152 * g + 0.0722 * b)) as u8
}

/// As if no step were rounded.
fn luma_in_whole_numbers([r, g, b]: [u8; 3]) -> u8 {
    let [r, g, b] = [r, g, b].map(u32::from);
    ((2126 * r + 7152 * g + 722 * b) / 10_000) as u8
}
