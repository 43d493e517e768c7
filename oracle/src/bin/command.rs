//! Holds what the command `badge` draws to the original, files in and files out.
//!
//!   command [--badge PATH] [--cases N] [--seed N]
//!
//! A case is a process. The files of a case that differs are kept.

use std::process::{Command, ExitCode};
use std::{env, fs, io, process};

use oracle::jobs::{Files, Job, SAID_OF_RETIRED, job};
use oracle::words::{number_after, word_after};

/// The run ends once this many differences are found.
const ENOUGH: usize = 5;

/// What was compared and found.
#[derive(Default)]
struct Report {
    draws: u64,
    quantizes: u64,
    /// Refusals with 8, and with 15.
    overfull: u64,
    retired: u64,
    found: Vec<String>,
}

impl Report {
    fn compared(&self) -> u64 {
        self.draws + self.quantizes + self.overfull + self.retired
    }

    fn note(&mut self, job: &Job, difference: Option<String>) {
        let count = match &job.written {
            Err(said) if said == SAID_OF_RETIRED => &mut self.retired,
            Err(_) => &mut self.overfull,
            Ok(_) if job.words[0] == "draw" => &mut self.draws,
            Ok(_) => &mut self.quantizes,
        };
        *count += 1;
        self.found.extend(difference);
    }
}

fn files_in(folder: &str) -> io::Result<Files> {
    let file = |entry: fs::DirEntry| Ok((entry.file_name().to_string_lossy().into(), fs::read(entry.path())?));
    fs::read_dir(folder)?.map(|entry| entry.and_then(file)).collect()
}

fn put(folder: &str, front: &str, files: &Files) -> io::Result<()> {
    files.iter().try_for_each(|(name, bytes)| fs::write(format!("{folder}/{front}{name}"), bytes))
}

/// Runs a job in a folder of its own, and says what is different from what must
/// be: the status, the refusal, or the files that are there afterwards.
fn difference(badge: &str, folder: &str, job: &Job) -> io::Result<Option<String>> {
    fs::create_dir(folder)?;
    put(folder, "", &job.before)?;
    let ran = Command::new(badge).args(&job.words).output()?;
    let said = String::from_utf8_lossy(&ran.stderr);
    let (status, refusal, written) = match &job.written {
        Ok(files) => (0, "", files),
        Err(refusal) => (3, refusal.as_str(), &Files::new()),
    };
    let (left, mut after) = (files_in(folder)?, job.before.clone());
    after.extend(written.clone());
    if ran.status.code() == Some(status) && said.contains(refusal) && left == after {
        fs::remove_dir_all(folder)?;
        return Ok(None);
    }
    put(folder, "expected-", written)?;
    let names = left.keys().chain(after.keys().filter(|name| !left.contains_key(*name)));
    let differ: Vec<&str> = names.filter(|name| left.get(*name) != after.get(*name)).map(String::as_str).collect();
    Ok(Some(format!(
        "{badge} {}\n    expected status {status} and {refusal:?}, got {} and {said:?}; files that differ: {}",
        job.words.join(" "),
        ran.status,
        differ.join(" ")
    )))
}

fn compare(badge: &str) -> io::Result<Report> {
    let (seed, cases) = (number_after("--seed", 1), number_after("--cases", 1000));
    // A first run builds, and says so here and not in a case.
    if !Command::new(badge).arg("--version").status()?.success() {
        return Err(io::Error::other("it does not say its version"));
    }
    let top = env::temp_dir().join(format!("badge-command-{}", process::id()));
    fs::create_dir(&top)?;
    let mut report = Report::default();
    for number in 0..cases {
        let folder = top.join(number.to_string()).display().to_string();
        let job = job(seed, number, &folder);
        report.note(&job, difference(badge, &folder, &job)?);
        if report.found.len() == ENOUGH {
            break;
        }
    }
    // Where files were kept it is not empty, and stays.
    let _ = fs::remove_dir(top);
    Ok(report)
}

fn main() -> ExitCode {
    let badge = word_after("--badge").unwrap_or("../badge".into());
    let report = match compare(&badge) {
        Ok(report) => report,
        Err(wrong) => {
            eprintln!("command: {badge}: {wrong}");
            return ExitCode::from(2);
        }
    };
    report.found.iter().for_each(|difference| println!("differs: {difference}"));
    let Report { draws, quantizes, overfull, retired, found } = &report;
    println!(
        "compared: {draws} draws, {quantizes} quantizes, {overfull} refusals with 8, {retired} with 15; differences: {}",
        found.len()
    );
    match report.compared() {
        0 => println!("nothing was compared"),
        _ if found.is_empty() => return ExitCode::SUCCESS,
        _ => {}
    }
    ExitCode::FAILURE
}
