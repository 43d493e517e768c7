//! `modes` and `kinds`: the names that can be chosen, with their numbers and how
//! a mode reduces, and the kinds that are retired.

use crate::names::Reducing;
use crate::trouble::Trouble;
use crate::words::{Command, Words};
use crate::{FINE, files, names};

pub const MODES: Command = Command {
    name: "modes",
    about: "lists the modes, with their shifts and reductions",
    operands: &[],
    options: &[],
    run: modes,
};

pub const KINDS: Command = Command {
    name: "kinds",
    about: "lists the kinds of dithering, with their numbers",
    operands: &[],
    options: &[],
    run: kinds,
};

/// What the last two reductions have in common.
const WITHOUT_ALPHA: &str =
    "grey, opaque colour: no pixel is transparent, and one whose alpha is below 128 reduces to black";

fn modes(_: &Words) -> Result<u8, Trouble> {
    let lines = names::MODES.iter().map(|mode| {
        let (levels, reducing) = (256 >> mode.shift, reducing(mode.reducing));
        format!("{:<11} {}      {levels:>2}                {reducing}\n", mode.name, mode.shift)
    });
    let lines: String = lines.collect();
    files::print(format!("mode        shift  levels a channel  reduction\n{lines}{WITHOUT_ALPHA}\n").as_bytes())?;
    Ok(FINE)
}

/// A reduction in words.
fn reducing(reducing: Reducing) -> &'static str {
    match reducing {
        Reducing::ByAlpha => "by alpha",
        Reducing::Grey => "grey",
        Reducing::OpaqueColor => "opaque colour",
    }
}

fn kinds(_: &Words) -> Result<u8, Trouble> {
    let lines = names::drawn_kinds().map(|(number, kind)| match kind.word == kind.name {
        true => format!("{number:<7} {}\n", kind.name),
        false => format!("{number:<7} {:<16} {}\n", kind.name, kind.word),
    });
    let lines: String = lines.collect();
    files::print(format!("number  kind             or\n{lines}retired, refused with 15: {}\n", retired()).as_bytes())?;
    Ok(FINE)
}

/// The retired kinds on one line: somebody may have kept a name or a number.
fn retired() -> String {
    let kinds = names::retired_kinds().map(|(number, kind)| format!("{number} {}", kind.name));
    kinds.collect::<Vec<_>>().join(", ")
}
