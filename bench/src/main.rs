//! Measures the original against the port: same inputs, one run.
//!
//!   bench [--quick] [--only TEXT]...
//!   bench growth [--quick] [--to PATH]
//!   bench before ARCHIVE [--quick] [--only TEXT]...
//!   bench records BEFORE NOW [--quick] [--only TEXT]...
//!
//! The original here is the plain copy, with neither hooks nor probes. Only the
//! lookups alone are asked of the other copy, since two of them are private; no
//! hook is in their way. The original's conversion is a stand-in, so each row has
//! it three times: with the published definition in f32 (`f32`), with document
//! 01's conversion worked out for each colour (`exact`), and with that remembered
//! (`remembered`). Calls that the port lacks are left out by name. `growth` shows
//! how time grows with pixels and with candidates, and draws it; `before` holds
//! the port to an older archive of it, `records` one archive of the lookups over
//! records to an older one.

mod before;
mod beside;
mod calls;
mod cases;
mod growth;
mod library;
mod loaded;
mod lookups;
mod plot;
mod records;
mod rows;
mod subject;
mod timing;

use std::process::ExitCode;

use oracle::archive::Archive;

// The original stands at this crate's root, where its own paths expect it.
include!(concat!(env!("OUT_DIR"), "/plain.rs"));

/// What is measured.
#[derive(Default)]
enum Way {
    #[default]
    Table,
    Growth,
    Before(String),
    Records(String, String),
}

/// What the command asks for.
#[derive(Default)]
struct Options {
    way: Way,
    quick: bool,
    only: Vec<String>,
    to: Option<String>,
}

fn options() -> Result<Options, String> {
    let mut options = Options::default();
    let mut words = std::env::args().skip(1);
    while let Some(word) = words.next() {
        let mut after = || words.next().ok_or(format!("{word} wants another word after it"));
        match word.as_str() {
            "growth" => options.way = Way::Growth,
            "before" => options.way = Way::Before(after()?),
            "records" => options.way = Way::Records(after()?, after()?),
            "--quick" => options.quick = true,
            "--only" => options.only.push(after()?),
            "--to" => options.to = Some(after()?),
            _ => return Err(format!("{word} is not known")),
        }
    }
    Ok(options)
}

/// The table of all cases.
fn tabulate(port: &Archive, quick: bool, only: Vec<String>) {
    let (runs, large) = if quick { (3, 256) } else { (7, 1024) };
    let mut table = rows::Table::new(port, runs, only);
    table.fill(large);
    table.close();
}

/// The tables of growth, and their drawing at a path.
fn grow(port: &Archive, quick: bool, path: &str) -> Result<(), String> {
    let measured = growth::measured(port, quick)?;
    std::fs::write(path, plot::drawn(&measured).png()).map_err(|wrong| format!("{path}: {wrong}"))?;
    println!("wrote {path}");
    Ok(())
}

fn run(Options { way, quick, only, to }: Options) -> Result<(), String> {
    let port = Archive::default();
    match way {
        Way::Table => tabulate(&port, quick, only),
        Way::Growth => grow(&port, quick, &to.unwrap_or("../docs/growth.png".into()))?,
        Way::Before(archive) => before::measure(archive.as_ref(), &before::linked(), only, quick)?,
        Way::Records(before, now) => records::measure(before.as_ref(), now.as_ref(), only, quick)?,
    }
    Ok(())
}

fn main() -> ExitCode {
    match options().and_then(run) {
        Ok(()) => ExitCode::SUCCESS,
        Err(wrong) => {
            eprintln!("bench: {wrong}");
            ExitCode::FAILURE
        }
    }
}
