//! Writes the list of the original's answers that the repository replays.
//!
//!   record [--seed N] [--all | --calls NAME,NAME..] [--to PATH]

use std::process::ExitCode;

use oracle::case::Call;
use oracle::record::list;

/// Where the list stands in the repository, seen from the folder oracle.
const PLACE: &str = "../crates/replay/stdin";

struct Options {
    calls: Vec<Call>,
    seed: u64,
    path: String,
}

fn options() -> Result<Options, String> {
    let mut options = Options { calls: vec![Call::ToOklab, Call::OklabSqdist], seed: 1, path: PLACE.into() };
    let mut words = std::env::args().skip(1);
    while let Some(word) = words.next() {
        let mut value = || words.next().ok_or(format!("{word} wants a value"));
        match word.as_str() {
            "--all" => options.calls = Call::ALL.to_vec(),
            "--calls" => {
                let names = value()?;
                let calls = names.split(',').map(|n| Call::from_name(n).ok_or(format!("there is no call {n}")));
                options.calls = calls.collect::<Result<_, _>>()?;
            }
            "--seed" => options.seed = value()?.parse().map_err(|_| "--seed wants a number")?,
            "--to" => options.path = value()?,
            _ => return Err(format!("{word} is not known")),
        }
    }
    Ok(options)
}

/// The command without the path, which says nothing about what is written.
fn command(options: &Options) -> String {
    let names: Vec<&str> = options.calls.iter().map(|c| c.name()).collect();
    let which = if options.calls == Call::ALL { "--all".into() } else { format!("--calls {}", names.join(",")) };
    format!("cargo run --release --bin record -- {which} --seed {}", options.seed)
}

fn main() -> ExitCode {
    let written = options().and_then(|options| {
        let text = list(&options.calls, options.seed, &command(&options));
        std::fs::write(&options.path, &text).map_err(|e| format!("{}: {e}", options.path))?;
        Ok(format!("{}: {} lines, {} bytes", options.path, text.lines().count(), text.len()))
    });
    match written {
        Ok(line) => {
            println!("{line}");
            ExitCode::SUCCESS
        }
        Err(wrong) => {
            eprintln!("record: {wrong}");
            ExitCode::from(2)
        }
    }
}
