//! `help` and `--version`.

use std::ffi::OsStr;

use crate::trouble::{Trouble, shown};
use crate::words::{Command, Words, nearest};
use crate::{COMMANDS, FINE, files};

pub const HELP: Command = Command {
    name: "help",
    about: "says this, or all about one subcommand",
    operands: &["[SUBCOMMAND]"],
    options: &[],
    run,
};

pub const VERSION: Command =
    Command { name: "--version", about: "says which version this is", operands: &[], options: &[], run: version };

/// The option that every subcommand has.
pub const OPTION: &str = "--help";

/// What is true of every subcommand.
const ALL: &str = "\
IN.pam is a PAM file (RGB or RGB_ALPHA, MAXVAL 255). OUT is PNG if its name ends
in .png, else PAM, and is written whole or not at all; IN and OUT may be the
same. - is standard input or output.

Exit status: 0 fine; 1 compare found a difference; 2 usage, or a file that can't
be read or written; 3 refused by the library, with the refusal's number.
";

/// The subcommand that a word names.
pub fn command(word: &OsStr) -> Result<&'static Command, Trouble> {
    let name = match word.to_str() {
        Some(OPTION | "-h") => HELP.name,
        Some("-V") => VERSION.name,
        other => other.unwrap_or_default(),
    };
    COMMANDS.into_iter().find(|command| command.name == name).ok_or_else(|| {
        let near = nearest(&word.to_string_lossy(), COMMANDS.iter().map(|command| command.name));
        Trouble::usage(format!("unknown subcommand {}: did you mean {near}?", shown(word)))
    })
}

/// A subcommand with its options and operands.
fn usage(command: &Command) -> String {
    let options = if command.options.is_empty() { "" } else { " [OPTIONS]" };
    let operands: String = command.operands.iter().map(|name| format!(" {name}")).collect();
    format!("./badge {}{options}{operands}", command.name)
}

/// All about one subcommand.
pub fn one(command: &Command) -> Result<u8, Trouble> {
    let options = command.options.iter().map(|choice| {
        let form = format!("{} {}", choice.name, choice.value);
        format!("  {form:<29}{}\n", choice.about)
    });
    let text = format!("{}\n{}\n\n{}", usage(command), command.about, options.collect::<String>());
    files::print(format!("{}\n", text.trim_end()).as_bytes())?;
    Ok(FINE)
}

fn run(words: &Words) -> Result<u8, Trouble> {
    if let Some(word) = words.operands.first() {
        return one(command(word)?);
    }
    let lines = COMMANDS.iter().map(|command| format!("  {:<11}{}\n", command.name, command.about));
    let lines: String = lines.collect();
    files::print(
        format!("./badge SUBCOMMAND ..: draws badges from files\n\n{lines}\n./badge help SUBCOMMAND has its options.\n\n{ALL}").as_bytes(),
    )?;
    Ok(FINE)
}

fn version(_: &Words) -> Result<u8, Trouble> {
    files::print(concat!("badge ", env!("CARGO_PKG_VERSION"), "\n").as_bytes())?;
    Ok(FINE)
}
