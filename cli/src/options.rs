//! The options that several subcommands take, and their values.

use crate::names::{KINDS, MODES, Mode, drawn_kinds, same};
use crate::tables::{ModeTables, Rounding};
use crate::trouble::{Trouble, shown};
use crate::words::{Choice, Words, nearest};

pub const MODE: Choice = Choice { name: "--mode", value: "MODE", about: "the console's mode (snes); ./badge modes" };
pub const KIND: Choice =
    Choice { name: "--kind", value: "KIND", about: "the kind of dithering (floyd-steinberg); ./badge kinds" };
pub const ROUNDING: Choice =
    Choice { name: "--rounding", value: "truncate|nearest", about: "how a channel is reduced (truncate)" };
pub const TILE: Choice = Choice { name: "--tile", value: "WxH", about: "a tile's width and height (8x8)" };
pub const LIMIT: Choice = Choice { name: "--limit", value: "N", about: "the most colours in a tile (16)" };
pub const ZERO: Choice =
    Choice { name: "--zero", value: "RRGGBB", about: "colour zero: pixels that reduce to it keep it (none)" };
pub const ORIGIN: Choice =
    Choice { name: "--origin", value: "X,Y", about: "where the picture begins in a larger one (0,0)" };
pub const PALETTE: Choice =
    Choice { name: "--palette", value: "PALETTE.pam", about: "a file whose pixels are the palette's entries" };
pub const INDICES: Choice =
    Choice { name: "--indices", value: "FILE", about: "where the palette's indices go, a byte a pixel" };

/// How a mode reduces colours: the mode and its tables.
pub struct Console {
    pub mode: &'static Mode,
    pub tables: ModeTables,
}

/// The value of an option as text.
fn text<'a>(words: &'a Words, choice: &Choice, default: &'a str) -> Result<&'a str, Trouble> {
    let Some(value) = words.value(choice) else { return Ok(default) };
    value.to_str().ok_or_else(|| wrong(choice, &shown(value)))
}

/// A value that is not of the form that the option wants.
fn wrong(choice: &Choice, value: &str) -> Trouble {
    Trouble::usage(format!("{} {} is not of the form {}", choice.name, shown(value), choice.value))
}

/// A name that is none of those in a list.
fn unknown<'a>(what: &str, word: &str, names: impl Iterator<Item = &'a str>) -> Trouble {
    let near = nearest(&word.to_ascii_lowercase(), names);
    Trouble::usage(format!("unknown {what} {}: did you mean {near}? ./badge {what}s lists them", shown(word)))
}

fn mode(words: &Words) -> Result<&'static Mode, Trouble> {
    let word = text(words, &MODE, "snes")?;
    let found = MODES.iter().find(|mode| same(word, mode.name));
    found.ok_or_else(|| unknown("mode", word, MODES.iter().map(|mode| mode.name)))
}

fn rounding(words: &Words) -> Result<Rounding, Trouble> {
    match text(words, &ROUNDING, "truncate")? {
        "truncate" => Ok(Rounding::Truncate),
        "nearest" => Ok(Rounding::Nearest),
        other => Err(wrong(&ROUNDING, other)),
    }
}

pub fn console(words: &Words) -> Result<Console, Trouble> {
    let (mode, rounding) = (mode(words)?, rounding(words)?);
    Ok(Console { mode, tables: ModeTables::new(mode.shift, rounding) })
}

/// A kind by name or by number. A number that no kind has and that of a
/// retired kind are left to the library to refuse.
pub fn kind(words: &Words) -> Result<u32, Trouble> {
    let word = text(words, &KIND, "floyd-steinberg")?;
    if let Some(number) = number(word) {
        return Ok(number);
    }
    let place = KINDS.iter().position(|kind| same(word, kind.name) || same(word, kind.word));
    match place {
        Some(place) => Ok(place as u32),
        None => Err(unknown("kind", word, drawn_kinds().flat_map(|(_, kind)| [kind.name, kind.word]))),
    }
}

/// A number of digits alone, up to 4,294,967,295.
fn number(word: &str) -> Option<u32> {
    word.bytes().all(|sign| sign.is_ascii_digit()).then(|| word.parse().ok()).flatten()
}

/// Two numbers with a sign between them.
fn pair(words: &Words, choice: &Choice, default: &str, between: char) -> Result<[u32; 2], Trouble> {
    let word = text(words, choice, default)?;
    let both = word.split_once(between).and_then(|(first, second)| Some([number(first)?, number(second)?]));
    both.ok_or_else(|| wrong(choice, word))
}

pub fn tile(words: &Words) -> Result<[u32; 2], Trouble> {
    pair(words, &TILE, "8x8", 'x')
}

pub fn origin(words: &Words) -> Result<[u32; 2], Trouble> {
    pair(words, &ORIGIN, "0,0", ',')
}

/// The limit, if one was given.
pub fn given_limit(words: &Words) -> Result<Option<u32>, Trouble> {
    if words.value(&LIMIT).is_none() {
        return Ok(None);
    }
    let word = text(words, &LIMIT, "")?;
    number(word).map(Some).ok_or_else(|| wrong(&LIMIT, word))
}

/// Colour zero before it is reduced, if there is one.
pub fn zero(words: &Words) -> Result<Option<[u8; 4]>, Trouble> {
    if words.value(&ZERO).is_none() {
        return Ok(None);
    }
    let word = text(words, &ZERO, "")?;
    let digits = word.strip_prefix('#').unwrap_or(word);
    let hex = digits.len() == 6 && digits.bytes().all(|sign| sign.is_ascii_hexdigit());
    let value = hex.then(|| u32::from_str_radix(digits, 16).ok()).flatten().ok_or_else(|| wrong(&ZERO, word))?;
    let [_, r, g, b] = value.to_be_bytes();
    Ok(Some([r, g, b, 255]))
}
