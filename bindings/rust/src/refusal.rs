//! Why a call refuses, with the numbers of the scope document's table and of
//! the requests after it, and the C header's names: `KindOrShift` is its
//! `BADGE_REFUSED_KIND_OR_SHIFT`.

use std::fmt;

/// Why a call was refused. Where several apply it is the first in the order
/// in which the call's own documentation has them.
///
/// A refused call leaves every buffer as it was, but for
/// [`TooManyCandidates`](Refusal::TooManyCandidates) and
/// [`TileOver`](Refusal::TileOver).
#[derive(Clone, Copy, Debug, PartialEq, Eq, Hash)]
pub enum Refusal {
    /// 1: a kind above 10, a shift that does not go with the reduction, or in
    /// [`bracket_width`](crate::bracket_width) one that is not from 3 to 6.
    KindOrShift,
    /// 2: a side above 4,096, more than 1,048,576 pixels, or an origin and a
    /// side that add up to more than 4,294,967,295.
    Size,
    /// 3: a slice whose length is wrong or does not fit the others, or more
    /// than 65,536 candidate places.
    Length,
    /// 4: a palette that is empty or has more than 256 entries, or a list that
    /// is empty or has more than 65,536.
    Entries,
    /// 5: a tile side that is not from 1 to 4,096, or a limit above 256.
    Tiles,
    /// 6: an Oklab component that is not from -2 to 2. NaN is not.
    Component,
    /// 7: more candidates than places for them. All candidate bytes are 0
    /// now, and nothing else has changed.
    TooManyCandidates,
    /// 8: a tile has more colours than its limit. All output pixels and cells
    /// are 0 now, and the candidate rooms are as on acceptance.
    TileOver {
        /// The first such tile, counted row by row from 0.
        tile: u32,
        /// How many candidates the picture has.
        count: usize,
    },
    /// 9: a threshold or a pick was asked of a kind that has no matrix: off,
    /// Atkinson or Floyd-Steinberg.
    NoMatrix,
    /// 10: a PAM file whose header is not one of those that are read, or a
    /// picture without pixels, to be read or to be written. It comes directly
    /// before 2.
    PamHeader,
    /// 11: a PAM file that has fewer bytes after its header than the pixels
    /// take, or more. It comes directly after 2.
    PamPixels,
    /// 15: a retired kind, 5 or 6: one of the two stipples. It comes directly
    /// after 1.
    RetiredKind,
    /// A number that the table does not have. The archive of this repository
    /// never gives one: another was linked.
    Unknown(u32),
}

impl Refusal {
    /// The number in the table, which the C interface returns.
    pub fn number(self) -> u32 {
        match self {
            Refusal::KindOrShift => 1,
            Refusal::Size => 2,
            Refusal::Length => 3,
            Refusal::Entries => 4,
            Refusal::Tiles => 5,
            Refusal::Component => 6,
            Refusal::TooManyCandidates => 7,
            Refusal::TileOver { .. } => 8,
            Refusal::NoMatrix => 9,
            Refusal::PamHeader => 10,
            Refusal::PamPixels => 11,
            Refusal::RetiredKind => 15,
            Refusal::Unknown(number) => number,
        }
    }

    /// The value of a call that accepts, or why it refused.
    pub(crate) fn unless_accepted<T>(number: u32, value: T) -> Result<T, Refusal> {
        match number {
            0 => Ok(value),
            1 => Err(Refusal::KindOrShift),
            2 => Err(Refusal::Size),
            3 => Err(Refusal::Length),
            4 => Err(Refusal::Entries),
            5 => Err(Refusal::Tiles),
            6 => Err(Refusal::Component),
            7 => Err(Refusal::TooManyCandidates),
            9 => Err(Refusal::NoMatrix),
            10 => Err(Refusal::PamHeader),
            11 => Err(Refusal::PamPixels),
            15 => Err(Refusal::RetiredKind),
            other => Err(Refusal::Unknown(other)),
        }
    }
}

impl fmt::Display for Refusal {
    fn fmt(&self, f: &mut fmt::Formatter<'_>) -> fmt::Result {
        let why = match self {
            Refusal::KindOrShift => "no such kind or shift, or a shift that does not go with the reduction",
            Refusal::Size => "the picture is too large",
            Refusal::Length => "a length is wrong",
            Refusal::Entries => "the palette or list is empty or too long",
            Refusal::Tiles => "a tile side or the limit is out of bounds",
            Refusal::Component => "an Oklab component is not from -2 to 2",
            Refusal::TooManyCandidates => "more candidates than places",
            Refusal::TileOver { tile, .. } => return write!(f, "8: tile {tile} is over its limit"),
            Refusal::NoMatrix => "the kind has no matrix",
            Refusal::PamHeader => "no PAM header that is read, or no pixels",
            Refusal::PamPixels => "the PAM file's pixels are cut short, or something is left over",
            Refusal::RetiredKind => "the kind is retired",
            Refusal::Unknown(_) => "a number that is not in the table",
        };
        write!(f, "{}: {why}", self.number())
    }
}

impl std::error::Error for Refusal {}
