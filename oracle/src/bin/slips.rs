//! Tries the driver on the right mock, which must show no difference, and on
//! every slip, which must show one.
//!
//!   slips [--seed N] [--cases N]

use std::process::ExitCode;

use oracle::case::Call;
use oracle::drive::{self, Report};
use oracle::mock::{Mock, Slip};
use oracle::words::number_after;

/// The right mock over everything that a port is put to.
fn right_is_right(seed: u64, cases: u64) -> bool {
    let mut report = Report::new(5);
    let port = Mock::right();
    drive::corners(&mut report, &port, &Call::ALL);
    drive::random(&mut report, &port, &Call::ALL, seed, 0, cases);
    drive::all_thresholds(&mut report, &port);
    drive::all_widths(&mut report, &port);
    drive::all_lumas(&mut report, &port);
    for difference in &report.found {
        println!("differs: {difference}");
    }
    println!("right mock: {} differences; {}", report.found.len(), report.summary());
    println!("cases by expected number: {}", report.number_counts());
    report.found.is_empty()
}

/// Which calls show the slip, and after how many random cases the first does.
fn caught(slip: Slip, seed: u64, cases: u64) -> bool {
    let port = Mock::with(slip);
    let mut by = Vec::new();
    for call in Call::ALL {
        let mut report = Report::new(1);
        drive::random(&mut report, &port, &[call], seed, 0, cases);
        if report.full() {
            by.push(format!("{} after {}", call.name(), report.compared[call as usize]));
        }
    }
    let verdict = if by.is_empty() { "MISSED" } else { "caught" };
    println!("{verdict} {slip:?} ({})", if by.is_empty() { "by no call".into() } else { by.join(", ") });
    !by.is_empty()
}

fn main() -> ExitCode {
    let (seed, cases) = (number_after("--seed", 1), number_after("--cases", 1000));
    let mut well = right_is_right(seed, 3 * cases);
    for slip in Slip::ALL {
        well &= caught(slip, seed, cases);
    }
    println!("{}", if well { "all slips caught" } else { "the driver is not good enough" });
    if well { ExitCode::SUCCESS } else { ExitCode::FAILURE }
}
