//! The original's modes and kinds, under its names: how each mode reduces, and
//! which of the kinds are retired.

/// How a mode reduces a pixel, with the library's numbers. Grey and opaque
/// colour have no transparent pixels: one whose alpha is below 128 reduces to
/// black.
#[derive(Clone, Copy, Debug, PartialEq, Eq)]
pub enum Reducing {
    ByAlpha = 0,
    Grey = 1,
    OpaqueColor = 2,
}

pub struct Mode {
    pub name: &'static str,
    pub shift: u32,
    pub reducing: Reducing,
}

const fn mode(name: &'static str, shift: u32) -> Mode {
    Mode { name, shift, reducing: Reducing::ByAlpha }
}

const fn grey(name: &'static str, shift: u32) -> Mode {
    Mode { name, shift, reducing: Reducing::Grey }
}

/// All modes, in the order of their shifts.
pub const MODES: [Mode; 16] = [
    mode("snes", 3),
    mode("snes-mode7", 3),
    mode("gbc", 3),
    mode("gba", 3),
    mode("gba-affine", 3),
    mode("gg", 4),
    mode("ngpc", 4),
    mode("wsc", 4),
    mode("wsc-packed", 4),
    mode("md", 5),
    mode("pce", 5),
    mode("pce-sprite", 5),
    grey("ngp", 5),
    grey("ws", 5),
    grey("gb", 6),
    Mode { name: "sms", shift: 6, reducing: Reducing::OpaqueColor },
];

/// A kind; its number is its place in the list.
pub struct Kind {
    pub name: &'static str,
    /// The word for it on the original's own command line.
    pub word: &'static str,
    /// On a labelled sheet.
    pub caption: &'static str,
    /// Whether it is drawn no more. Its number is given to no other kind, and
    /// its name stands for that number still: an order that somebody kept is
    /// understood, and refused by the library.
    pub retired: bool,
}

const fn kind(name: &'static str, word: &'static str, caption: &'static str) -> Kind {
    Kind { name, word, caption, retired: false }
}

const fn retired(name: &'static str, word: &'static str, caption: &'static str) -> Kind {
    Kind { name, word, caption, retired: true }
}

/// All kinds that ever had a number.
pub const KINDS: [Kind; 11] = [
    kind("off", "off", "Off"),
    kind("bayer-2x2", "bayer2", "Bayer 2x2"),
    kind("bayer-4x4", "bayer4", "Bayer 4x4"),
    kind("bayer-8x8", "bayer8", "Bayer 8x8"),
    kind("checker", "checker", "Checker"),
    retired("stipple-v", "stipple_v", "Stipple V"),
    retired("stipple-h", "stipple_h", "Stipple H"),
    kind("line-v", "line_v", "Line V"),
    kind("line-h", "line_h", "Line H"),
    kind("atkinson", "atkinson", "Atkinson"),
    kind("floyd-steinberg", "fs", "Floyd-Steinberg"),
];

/// All kinds, with their numbers.
fn numbered() -> impl Iterator<Item = (u32, &'static Kind)> {
    (0..).zip(&KINDS)
}

/// The kinds that can be chosen, with their numbers.
pub fn drawn_kinds() -> impl Iterator<Item = (u32, &'static Kind)> {
    numbered().filter(|(_, kind)| !kind.retired)
}

/// The retired kinds, with their numbers.
pub fn retired_kinds() -> impl Iterator<Item = (u32, &'static Kind)> {
    numbered().filter(|(_, kind)| kind.retired)
}

/// Whether a word is a name: case and the signs between its parts play no
/// part, so that `GbaAffine`, `gba_affine` and `gba-affine` are one.
pub fn same(word: &str, name: &str) -> bool {
    let plain = |text: &str| text.replace(['-', '_', ' '], "").to_ascii_lowercase();
    plain(word) == plain(name)
}

/// A kind's name, or the number itself where no kind has it.
pub fn kind_name(number: u32) -> String {
    KINDS.get(number as usize).map_or_else(|| number.to_string(), |kind| kind.name.into())
}
