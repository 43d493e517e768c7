//! The names and numbers of the kinds, of the reductions and of the refusals are
//! those of the C header, none more and none less.

use std::fmt::Debug;

use badge_dither::*;

const HEADER: &str = include_str!("../../../include/badge_dither.h");

/// The constants of an enum of the header that begin so, without that beginning.
fn constants(name: &str, prefix: &str) -> Vec<(String, u32)> {
    let (_, rest) = HEADER.split_once(&format!("enum {name} {{")).expect(name);
    let (body, _) = rest.split_once("};").expect(name);
    let constant = |line: &str| {
        let (name, rest) = line.trim().strip_prefix(prefix)?.split_once(" = ")?;
        let digits = rest.split(|c: char| !c.is_ascii_digit()).next()?;
        Some((name.to_string(), digits.parse().ok()?))
    };
    body.lines().filter_map(constant).collect()
}

/// `TileOver { tile: 1, count: 2 }` as a constant's name: `TILE_OVER`.
fn constant_name(value: impl Debug) -> String {
    let mut name = String::new();
    for letter in format!("{value:?}").chars().take_while(char::is_ascii_alphanumeric) {
        if letter.is_ascii_uppercase() && !name.is_empty() {
            name.push('_');
        }
        name.push(letter.to_ascii_uppercase());
    }
    name
}

#[test]
#[allow(deprecated, reason = "the retired kinds keep their names and numbers")]
fn kinds() {
    let here = [
        ("OFF", kind::OFF),
        ("BAYER_2X2", kind::BAYER_2X2),
        ("BAYER_4X4", kind::BAYER_4X4),
        ("BAYER_8X8", kind::BAYER_8X8),
        ("CHECKER", kind::CHECKER),
        ("LINE_V", kind::LINE_V),
        ("LINE_H", kind::LINE_H),
        ("ATKINSON", kind::ATKINSON),
        ("FLOYD_STEINBERG", kind::FLOYD_STEINBERG),
        ("STIPPLE_V", kind::STIPPLE_V),
        ("STIPPLE_H", kind::STIPPLE_H),
    ];
    let there = constants("badge_kind", "BADGE_");
    assert_eq!(here.map(|(name, number)| (name.to_string(), number)).as_slice(), there);
}

#[test]
fn reductions() {
    let here = [Reducing::ByAlpha, Reducing::Grey(&[7]), Reducing::OpaqueColor(&[7])];
    let there = constants("badge_reducing", "BADGE_");
    assert_eq!(here.map(|reducing| (constant_name(reducing), reducing.number())).as_slice(), there);
}

#[test]
fn refusals() {
    let here = [
        Refusal::KindOrShift,
        Refusal::Size,
        Refusal::Length,
        Refusal::Entries,
        Refusal::Tiles,
        Refusal::Component,
        Refusal::TooManyCandidates,
        Refusal::TileOver { tile: 1, count: 2 },
        Refusal::NoMatrix,
        Refusal::PamHeader,
        Refusal::PamPixels,
        Refusal::RetiredKind,
    ];
    let there = constants("badge_refusal", "BADGE_REFUSED_");
    assert_eq!(here.map(|refusal| (constant_name(refusal), refusal.number())).as_slice(), there);
}
