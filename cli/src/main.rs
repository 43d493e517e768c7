//! The command `badge`: badges from files. Each subcommand has a file of its
//! name. Arguments, files, tables and messages are dealt with here; every
//! choice of a colour and every byte of a PAM file comes from the proved
//! archive, through `badge_dither`.

mod compare;
mod draw;
mod files;
mod gallery;
mod help;
mod info;
mod lists;
mod names;
mod options;
mod passes;
mod progress;
mod quantize;
mod refused;
mod sheets;
mod tables;
mod trouble;
mod words;

use std::ffi::OsString;
use std::process::ExitCode;

use trouble::Trouble;
use words::Command;

/// The subcommands, in the order in which `help` has them.
const COMMANDS: [&Command; 9] = [
    &draw::COMMAND,
    &quantize::COMMAND,
    &compare::COMMAND,
    &gallery::COMMAND,
    &info::COMMAND,
    &lists::MODES,
    &lists::KINDS,
    &help::HELP,
    &help::VERSION,
];

/// The exit status of a command that has done what it was asked to.
const FINE: u8 = 0;

fn run(words: &[OsString]) -> Result<u8, Trouble> {
    let Some((first, rest)) = words.split_first() else {
        return Err(Trouble::usage("a subcommand is missing: ./badge help lists them"));
    };
    let command = help::command(first)?;
    if rest.iter().take_while(|word| *word != "--").any(|word| word == help::OPTION || word == "-h") {
        return help::one(command);
    }
    (command.run)(&words::parse(command, rest)?)
}

fn main() -> ExitCode {
    let words: Vec<OsString> = std::env::args_os().skip(1).collect();
    let status = run(&words).unwrap_or_else(|trouble| {
        trouble.say();
        trouble.status
    });
    ExitCode::from(status)
}
