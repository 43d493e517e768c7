//! The calls that choose from a list of candidates, and the pick between two.
//!
//! SAFETY, for every call below: pointers and lengths are those of live slices,
//! arrays and values. What the call writes is borrowed for it alone; slices
//! that it only reads may share memory, as nothing writes to them.

use crate::c;
use crate::{NormalizedColor, ReducedColor, Refusal};

/// A list of 1 to 65,536 candidates, in three slices side by side.
///
/// A lookup refuses with [`Length`](Refusal::Length) where the three do not
/// belong to one number of entries, with [`Entries`](Refusal::Entries) where
/// that is 0 or above 65,536, and with [`Component`](Refusal::Component).
#[derive(Clone, Copy, Debug)]
pub struct Candidates<'a> {
    /// Reduced colours, four bytes an entry.
    pub reduced: &'a [u8],
    /// Normalised colours, four bytes an entry.
    pub normalized: &'a [u8],
    /// Oklab colours, three floats an entry: lightness, a, b.
    pub oklab: &'a [f32],
}

/// Two entries of a list that an ordered dither alternates between.
#[derive(Clone, Copy, Debug, PartialEq)]
pub struct Bracket {
    /// The colour of the darker one.
    pub dark: ReducedColor,
    /// The colour of the lighter one.
    pub light: ReducedColor,
    /// The share of the lighter one in the mix.
    pub ratio: f32,
    /// The position of the darker one in the list.
    pub dark_position: usize,
    /// The position of the lighter one in the list.
    pub light_position: usize,
}

/// An entry that is chosen: its colour, and its position in the list.
#[derive(Clone, Copy, Debug, PartialEq, Eq)]
pub struct Choice {
    /// The reduced colour.
    pub color: ReducedColor,
    /// The position.
    pub position: usize,
}

/// The position of the entry nearest to a colour, the first of equals.
#[rustfmt::skip]
pub fn nearest(list: Candidates, color: NormalizedColor) -> Result<usize, Refusal> {
    let [r, g, b, _] = color.0;
    let mut position = 0;
    // SAFETY: as the head of this file says.
    let number = unsafe {
        c::badge_nearest(
            list.reduced.as_ptr(), list.reduced.len(), list.normalized.as_ptr(), list.normalized.len(),
            list.oklab.as_ptr(), list.oklab.len(), r, g, b, &mut position,
        )
    };
    Refusal::unless_accepted(number, position as usize)
}

/// The positions of the nearest entry and of a second that mixes well with it
/// to the colour, of the `width` (1 to 16) nearest to the first. A list of one
/// entry has no second.
#[rustfmt::skip]
pub fn nearest_two(list: Candidates, color: NormalizedColor, width: u64) -> Result<(usize, Option<usize>), Refusal> {
    let [r, g, b, _] = color.0;
    let (mut first, mut second) = (0, 0);
    // SAFETY: as the head of this file says.
    let number = unsafe {
        c::badge_nearest_two(
            list.reduced.as_ptr(), list.reduced.len(), list.normalized.as_ptr(), list.normalized.len(),
            list.oklab.as_ptr(), list.oklab.len(), r, g, b, width, &mut first, &mut second,
        )
    };
    let other = (second != first).then_some(second as usize);
    Refusal::unless_accepted(number, (first as usize, other))
}

/// The two entries of [`nearest_two`], the darker one first, each with its
/// colour and its position, and the share of the lighter one. A list of one
/// entry gives that entry twice, and 0. Two entries of the same colour have a
/// position each.
#[rustfmt::skip]
pub fn ordered_bracket(list: Candidates, color: NormalizedColor, width: u64) -> Result<Bracket, Refusal> {
    let [r, g, b, _] = color.0;
    let (mut dark, mut light, mut ratio) = ([0; 4], [0; 4], 0.0);
    let (mut dark_position, mut light_position) = (0, 0);
    // SAFETY: as the head of this file says.
    let number = unsafe {
        c::badge_ordered_bracket(
            list.reduced.as_ptr(), list.reduced.len(), list.normalized.as_ptr(), list.normalized.len(),
            list.oklab.as_ptr(), list.oklab.len(), r, g, b, width, dark.as_mut_ptr(), dark.len(),
            light.as_mut_ptr(), light.len(), &mut ratio, &mut dark_position, &mut light_position,
        )
    };
    let (dark_position, light_position) = (dark_position as usize, light_position as usize);
    let (dark, light) = (ReducedColor(dark), ReducedColor(light));
    Refusal::unless_accepted(number, Bracket { dark, light, ratio, dark_position, light_position })
}

/// Which entry of a bracket stands at column `x` and row `y`: the lighter one
/// if the two colours differ and the ratio exceeds the kind's threshold there.
/// Any ratio will do; a NaN exceeds nothing. Refuses with
/// [`KindOrShift`](Refusal::KindOrShift), [`RetiredKind`](Refusal::RetiredKind)
/// and [`NoMatrix`](Refusal::NoMatrix).
#[rustfmt::skip]
pub fn pick(bracket: Bracket, kind: u32, x: u32, y: u32) -> Result<Choice, Refusal> {
    let (dark, light, mut chosen) = (bracket.dark.0, bracket.light.0, [0; 4]);
    // SAFETY: as the head of this file says.
    let number = unsafe {
        c::badge_pick(
            dark.as_ptr(), dark.len(), light.as_ptr(), light.len(), bracket.ratio, kind, x, y,
            chosen.as_mut_ptr(), chosen.len(),
        )
    };
    // The C call answers a colour, and light's only where the two differ. So a
    // colour that equals dark's is dark's entry, also where light is a twin of
    // it, and any other is light's: nothing has to be looked for in the list.
    let position = if chosen == dark { bracket.dark_position } else { bracket.light_position };
    Refusal::unless_accepted(number, Choice { color: ReducedColor(chosen), position })
}
