//! Compares the port with the original, through the port's C interface.
//!
//!   compare [random] [--seed N]... [--cases N] [--from N] [--call NAME]... [--mock]
//!   compare colors | lumas | thresholds | widths | lerps | exhaustive [--mock]
//!
//! `--mock` puts the cases to the right mock instead of the linked archive, and
//! `--slip NAME` to the mock with that slip, which shows what a difference is like.
//! `--root down` lets the conversion take document 01's root before its
//! amendment, to hold an older archive to it.

use std::process::ExitCode;

use oracle::archive::Archive;
use oracle::case::Call;
use oracle::drive::{self, Report};
use oracle::mock::{Mock, Slip};
use oracle::port::Port;
use quantette::{Root, with_root};

struct Options {
    what: String,
    seeds: Vec<u64>,
    from: u64,
    cases: u64,
    calls: Vec<Call>,
    mock: Option<Mock>,
    root: Root,
}

/// The options, or what is wrong with them.
fn options() -> Result<Options, String> {
    let mut options = Options {
        what: "random".into(),
        seeds: vec![],
        from: 0,
        cases: 2000,
        calls: vec![],
        mock: None,
        root: Root::Nearest,
    };
    let mut words = std::env::args().skip(1);
    while let Some(word) = words.next() {
        let mut value = || words.next().ok_or(format!("{word} wants a value"));
        let number = |text: String| text.parse::<u64>().map_err(|_| format!("{text} is not a number"));
        match word.as_str() {
            "--seed" => options.seeds.push(number(value()?)?),
            "--cases" => options.cases = number(value()?)?,
            "--from" => options.from = number(value()?)?,
            "--call" => {
                let name = value()?;
                options.calls.push(Call::from_name(&name).ok_or(format!("there is no call {name}"))?);
            }
            "--mock" => options.mock = Some(Mock::right()),
            "--slip" => {
                let name = value()?;
                let slip = Slip::ALL.into_iter().find(|slip| format!("{slip:?}") == name);
                options.mock = Some(Mock::with(slip.ok_or(format!("there is no slip {name}"))?));
            }
            "--root" => {
                options.root = match value()?.as_str() {
                    "nearest" => Root::Nearest,
                    "down" => Root::Down,
                    other => return Err(format!("there is no root {other}")),
                };
            }
            "random" | "colors" | "lumas" | "thresholds" | "widths" | "lerps" | "exhaustive" => options.what = word,
            _ => return Err(format!("{word} is not known")),
        }
    }
    if options.seeds.is_empty() {
        options.seeds.push(1);
    }
    if options.calls.is_empty() {
        options.calls = Call::ALL.to_vec();
    }
    Ok(options)
}

fn run_random(report: &mut Report, port: &impl Port, options: &Options) {
    if options.from == 0 {
        drive::corners(report, port, &options.calls);
    }
    for &seed in &options.seeds {
        drive::random(report, port, &options.calls, seed, options.from, options.from + options.cases);
    }
}

fn run(port: &impl Port, options: &Options) -> ExitCode {
    let mut report = Report::new(5);
    let all = options.what == "exhaustive";
    if options.what == "random" {
        run_random(&mut report, port, options);
    }
    if all || options.what == "thresholds" {
        drive::all_thresholds(&mut report, port);
    }
    if all || options.what == "widths" {
        drive::all_widths(&mut report, port);
    }
    if all || options.what == "lerps" {
        drive::lerp_grid(&mut report, port);
    }
    if all || options.what == "lumas" {
        drive::all_lumas(&mut report, port);
    }
    if all || options.what == "colors" {
        drive::all_colors(&mut report, port);
    }
    finish(&report)
}

fn finish(report: &Report) -> ExitCode {
    for difference in &report.found {
        println!("differs: {difference}");
    }
    println!("{}", report.summary());
    if !report.any_compared() {
        println!("nothing was compared");
        return ExitCode::FAILURE;
    }
    println!("cases by expected number: {}", report.number_counts());
    println!("differences: {}", report.found.len());
    if report.found.is_empty() { ExitCode::SUCCESS } else { ExitCode::FAILURE }
}

fn main() -> ExitCode {
    match options() {
        Ok(options) => with_root(options.root, || match &options.mock {
            Some(mock) => run(mock, &options),
            None => run(&Archive::default(), &options),
        }),
        Err(wrong) => {
            eprintln!("compare: {wrong}");
            ExitCode::from(2)
        }
    }
}
