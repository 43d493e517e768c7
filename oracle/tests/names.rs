//! What the command knows by itself is the original's: the modes with their
//! shifts, the kinds with their numbers and words, and the tables; and which kinds
//! are retired is document 02's.

#[allow(dead_code)]
#[path = "../../cli/src/names.rs"]
mod names;
#[path = "../../cli/src/tables.rs"]
mod tables;

use names::{KINDS, MODES, Reducing, same};
use oracle::mode::Mode::{self, *};
use oracle::mode::color::ModeColor;
use oracle::model::{BY_ALPHA, GREY, OPAQUE_COLOR, PAIRINGS, RETIRED};
use oracle::original::{kind_names, kind_numbers, modes_of, own_tables};
use tables::{ModeTables, Rounding};

/// The original's text as it was compiled.
const TEXT: &str = include_str!(concat!(env!("OUT_DIR"), "/hooked.rs"));

/// All that the original matches on.
const ALL: [Mode; 16] =
    [Snes, SnesMode7, Gb, Gbc, Gba, GbaAffine, Md, Pce, PceSprite, Sms, Gg, Ngp, Ngpc, Ws, Wsc, WscPacked];

fn names_of(modes: impl Iterator<Item = Mode>) -> Vec<String> {
    modes.map(|mode| format!("{mode:?}")).collect()
}

/// Whether two lists of names are one, in any order.
fn same_names<'a>(ours: impl Iterator<Item = &'a str>, theirs: &[String]) -> bool {
    let ours: Vec<&str> = ours.collect();
    ours.len() == theirs.len() && theirs.iter().all(|name| ours.iter().any(|word| same(word, name)))
}

/// A reduction by the number that a call names it with.
fn number_of(reducing: Reducing) -> u32 {
    match reducing {
        Reducing::ByAlpha => BY_ALPHA,
        Reducing::Grey => GREY,
        Reducing::OpaqueColor => OPAQUE_COLOR,
    }
}

#[test]
fn modes() {
    for [shift, reducing] in PAIRINGS {
        let ours = MODES.iter().filter(|mode| [mode.shift, number_of(mode.reducing)] == [shift, reducing]);
        let theirs = modes_of(shift, reducing);
        assert!(same_names(ours.map(|mode| mode.name), &names_of(theirs.iter().copied())), "{shift} {reducing}");
        assert!(theirs.iter().all(|mode| u32::from(mode.channel_shift()) == shift), "{shift} {reducing}");
    }
    assert!(same_names(MODES.iter().map(|mode| mode.name), &names_of(ALL.into_iter())));
}

/// A name as clap's `snake_case` has it.
fn snake_case(name: &str) -> String {
    let part = |sign: char| if sign.is_ascii_uppercase() { format!("_{sign}") } else { sign.into() };
    name.chars().map(part).collect::<String>().trim_start_matches('_').to_lowercase()
}

/// The kinds in the original's text, each with its word on the command line:
/// the one that an attribute gives, or else its name in `snake_case`.
fn kinds_in_text() -> Vec<(&'static str, String)> {
    let (before, body) = TEXT.split_once("pub enum Dither {").unwrap();
    assert!(before.ends_with("ValueEnum)]\n#[value(rename_all = \"snake_case\")]\n"));
    let (mut kinds, mut given) = (Vec::new(), None);
    for line in body.lines().map(str::trim).take_while(|line| *line != "}") {
        if let Some(word) = line.strip_prefix("#[clap(name = \"").and_then(|rest| rest.strip_suffix("\")]")) {
            given = Some(word.to_string());
        } else if let Some(name) = line.strip_suffix(',') {
            kinds.push((name, given.take().unwrap_or_else(|| snake_case(name))));
        } else {
            assert!(line.is_empty() || line.starts_with("///"), "{line}");
        }
    }
    kinds
}

#[test]
fn kinds() {
    let theirs = kinds_in_text();
    assert_eq!(theirs.iter().map(|(name, _)| *name).collect::<Vec<_>>(), kind_names());
    assert_eq!(theirs.len(), KINDS.len());
    for (number, (ours, (name, word))) in KINDS.iter().zip(&theirs).enumerate() {
        assert_eq!(kind_numbers()[number], number as u32);
        assert!(same(ours.name, name) && same(ours.caption, name), "{number} {name}");
        assert_eq!(ours.word, word);
    }
}

#[test]
fn retired_kinds() {
    let retired = (0..).zip(&KINDS).filter(|(_, kind)| kind.retired).map(|(number, _)| number);
    assert!(retired.eq(RETIRED));
}

#[test]
fn own_tables_are_the_originals() {
    for shift in 3..=6 {
        for rounding in [Rounding::Truncate, Rounding::Nearest] {
            let ours = ModeTables::new(shift, rounding);
            let theirs = own_tables(shift, rounding == Rounding::Nearest);
            assert_eq!(ours.reduction, theirs.reduction, "shift {shift}, {rounding:?}");
            assert_eq!(ours.scale, theirs.scale, "shift {shift}, {rounding:?}");
        }
    }
}
