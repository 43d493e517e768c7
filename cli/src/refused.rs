//! What a refusal says in words, with the values that led to it.

use std::ffi::OsStr;

use badge_dither::pam::Image;
use badge_dither::{Picture, Refusal};

use crate::names::{drawn_kinds, kind_name};
use crate::passes::Frame;
use crate::trouble::{Trouble, shown};

/// A file that was not read.
pub fn reading(refusal: Refusal, name: &OsStr, file: &[u8]) -> Trouble {
    let words = match refusal {
        Refusal::PamHeader => format!(
            "no PAM file of RGB or RGB_ALPHA with MAXVAL 255, or one without pixels: {}, of {} bytes, begins with {}",
            shown(name),
            file.len(),
            front(file)
        ),
        Refusal::Size => format!(
            "a side above 4096 or more than 1048576 pixels: {} has {}",
            shown(name),
            said(file, &["WIDTH", "HEIGHT"])
        ),
        Refusal::PamPixels => format!(
            "pixels are missing or something is left over: {} has {} bytes in all, with {}",
            shown(name),
            file.len(),
            said(file, &["WIDTH", "HEIGHT", "DEPTH"])
        ),
        other => format!("{}: {}", shown(name), plain(other)),
    };
    Trouble::refused(refusal, &words)
}

/// The lines before the pixels, if there are any.
fn lines(file: &[u8]) -> impl Iterator<Item = &[u8]> {
    file.split(|&byte| byte == b'\n').map(|line| line.trim_ascii()).take_while(|line| line != b"ENDHDR")
}

/// A file's first line, and of a PAM file the values in its header.
fn front(file: &[u8]) -> String {
    let first = quoted(lines(file).next().unwrap_or_default());
    match said(file, &["WIDTH", "HEIGHT", "DEPTH", "MAXVAL", "TUPLTYPE"]) {
        values if file.starts_with(b"P7") && !values.is_empty() => format!("{first} and has {values}"),
        _ => first,
    }
}

/// The lines of a header that open with some names, as they stand there. They
/// are shown and not read: reading is the library's.
fn said(file: &[u8], names: &[&str]) -> String {
    let line = |name: &&str| lines(file).find(|line| line.starts_with(name.as_bytes())).map(quoted);
    names.iter().filter_map(line).collect::<Vec<_>>().join(", ")
}

/// The front of a text on one line, in quotation marks.
fn quoted(text: &[u8]) -> String {
    const MOST: usize = 32;
    let front = String::from_utf8_lossy(&text[..text.len().min(MOST)]);
    format!("{:?}{}", front, if text.len() > MOST { " .." } else { "" })
}

/// A picture that was not written as PAM.
pub fn writing(refusal: Refusal, name: &OsStr, [width, height]: [u32; 2]) -> Trouble {
    let words = match refusal {
        Refusal::Size => format!(
            "{width}x{height} is more than 4096 on a side or 1048576 pixels: {} would be PAM, and .png has no such bound",
            shown(name)
        ),
        other => format!("{} with {width}x{height}: {}", shown(name), plain(other)),
    };
    Trouble::refused(refusal, &words)
}

/// What both passes refuse alike.
fn passing(refusal: Refusal, kind: u32, picture: Picture) -> String {
    let (width, height) = (picture.width, picture.height);
    match refusal {
        // It is not the shift: each mode's goes with its reduction.
        Refusal::KindOrShift => format!("kind {kind} is none of 0 to 10"),
        Refusal::RetiredKind => retired(kind),
        Refusal::Size => format!("{width}x{height} is more than 4096 on a side or 1048576 pixels"),
        other => format!("a picture of {width}x{height} by kind {kind}: {}", plain(other)),
    }
}

/// A retired kind, with those that are left to choose from.
fn retired(kind: u32) -> String {
    let others: Vec<&str> = drawn_kinds().map(|(_, other)| other.name).collect();
    format!("kind {kind} ({}) is retired, choose another: {}", kind_name(kind), others.join(", "))
}

/// The mode pass.
pub fn drawing(refusal: Refusal, kind: u32, frame: &Frame, picture: Picture) -> Trouble {
    let ([x, y], [width, height], limit) = (frame.origin, frame.tile, frame.limit);
    let words = match refusal {
        // A picture that was read has a size within the bounds.
        Refusal::Size => format!(
            "origin {x},{y} and the picture's {}x{} add up to more than 4294967295",
            picture.width, picture.height
        ),
        Refusal::Tiles => tiles(frame.tile, limit),
        Refusal::TileOver { tile, .. } => {
            let [column, row] = place(tile, picture.width, width);
            format!("tile {tile} (column {column}, row {row}, tiles of {width}x{height}) has more than {limit} colours")
        }
        other => passing(other, kind, picture),
    };
    Trouble::refused(refusal, &words)
}

/// A tile or a limit out of bounds.
pub fn tiles([width, height]: [u32; 2], limit: u32) -> String {
    format!("a tile of {width}x{height} or a limit of {limit}: sides go from 1 to 4096, the limit from 0 to 256")
}

/// A tile's column and row, by its number and the picture's and tile's widths.
pub fn place(tile: u32, picture: u32, width: u32) -> [u32; 2] {
    let across = picture.div_ceil(width);
    [tile % across, tile / across]
}

/// The palette's pass.
pub fn quantizing(refusal: Refusal, kind: u32, name: &OsStr, palette: &Image, picture: Picture) -> Trouble {
    let words = match refusal {
        Refusal::Entries => format!(
            "a palette has 1 to 256 entries, and {} has {} ({}x{} pixels)",
            shown(name),
            palette.pixels.len() / 4,
            palette.width,
            palette.height
        ),
        other => passing(other, kind, picture),
    };
    Trouble::refused(refusal, &words)
}

/// The library's own words.
pub fn plain(refusal: Refusal) -> String {
    let said = refusal.to_string();
    said.split_once(": ").map_or(said.clone(), |(_, words)| words.into())
}
