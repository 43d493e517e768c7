//! Colours, and the calls that take single values.

use crate::c;
use crate::Refusal;

/// A colour in a console's own precision: red, green, blue, alpha.
#[derive(Clone, Copy, Debug, Default, PartialEq, Eq, Hash, PartialOrd, Ord)]
pub struct ReducedColor(pub [u8; 4]);

/// A colour from 0 to 255: red, green, blue, alpha.
#[derive(Clone, Copy, Debug, Default, PartialEq, Eq, Hash, PartialOrd, Ord)]
pub struct NormalizedColor(pub [u8; 4]);

impl ReducedColor {
    /// All four bytes 0.
    pub const TRANSPARENT: ReducedColor = ReducedColor([0; 4]);
}

impl NormalizedColor {
    /// All four bytes 0.
    pub const TRANSPARENT: NormalizedColor = NormalizedColor([0; 4]);
}

/// A colour in Oklab.
#[derive(Clone, Copy, Debug, Default, PartialEq)]
pub struct Oklab {
    /// Lightness.
    pub l: f32,
    /// From green to red.
    pub a: f32,
    /// From blue to yellow.
    pub b: f32,
}

/// The Oklab colour of a colour, whose alpha plays no part.
pub fn to_oklab(color: NormalizedColor) -> Oklab {
    let [r, g, b, _] = color.0;
    let mut o = Oklab::default();
    // SAFETY: the three pointers are to three fields of a live value.
    unsafe { c::badge_to_oklab(r, g, b, &mut o.l, &mut o.a, &mut o.b) };
    o
}

/// The squared distance of two Oklab colours. Refuses with
/// [`Component`](Refusal::Component).
pub fn oklab_sqdist(first: Oklab, second: Oklab) -> Result<f32, Refusal> {
    let mut distance = 0.0;
    // SAFETY: the pointer is to a live value.
    let number =
        unsafe { c::badge_oklab_sqdist(first.l, first.a, first.b, second.l, second.a, second.b, &mut distance) };
    Refusal::unless_accepted(number, distance)
}

/// The threshold of an ordered kind at column `x` and row `y`. Refuses with
/// [`KindOrShift`](Refusal::KindOrShift), [`RetiredKind`](Refusal::RetiredKind)
/// and [`NoMatrix`](Refusal::NoMatrix).
pub fn ordered_threshold(kind: u32, x: u32, y: u32) -> Result<f32, Refusal> {
    let mut threshold = 0.0;
    // SAFETY: the pointer is to a live value.
    let number = unsafe { c::badge_ordered_threshold(kind, x, y, &mut threshold) };
    Refusal::unless_accepted(number, threshold)
}

/// How many candidates beside the nearest are considered for a mix, where a
/// palette or tile has `max` colours: 1 to 16. The shift is 3 to 6; another is
/// refused with [`KindOrShift`](Refusal::KindOrShift).
pub fn bracket_width(shift: u32, max: u64) -> Result<u64, Refusal> {
    let mut width = 0;
    // SAFETY: the pointer is to a live value.
    let number = unsafe { c::badge_bracket_width(shift, max, &mut width) };
    Refusal::unless_accepted(number, width)
}

/// How far `color` lies on the way from `c1`, at 0, to `c2`, at 1; 0 where
/// the two have the same red, green and blue. `clamp` keeps it from 0 to 1.
pub fn lerp(c1: NormalizedColor, c2: NormalizedColor, color: NormalizedColor, clamp: bool) -> f32 {
    let ([r1, g1, b1, _], [r2, g2, b2, _], [r, g, b, _]) = (c1.0, c2.0, color.0);
    // SAFETY: only values are handed over.
    unsafe { c::badge_lerp(r1, g1, b1, r2, g2, b2, r, g, b, u32::from(clamp)) }
}
