//! The runs of the command have what they are for: each pass, mode, kind and rounding
//! with each, and retired kinds, by name and by number, which are refused.

use std::collections::BTreeSet;

use oracle::jobs::{EACH_WITH_EACH, Job, SAID_OF_RETIRED, job};
use oracle::model::{DRAWN, RETIRED};
use oracle::original::kind_names;

/// The word after an option, or the usual one.
fn word<'a>(job: &'a Job, option: &str, usual: &'a str) -> &'a str {
    job.words.iter().skip_while(|word| *word != option).nth(1).map_or(usual, String::as_str)
}

fn all_jobs() -> impl Iterator<Item = Job> {
    (0..EACH_WITH_EACH).map(|number| job(1, number, "folder"))
}

/// The number of a kind that is given by name or by number.
fn number(word: &str) -> u32 {
    let named = kind_names().iter().position(|name| name == word);
    named.map_or_else(|| word.parse().unwrap(), |place| place as u32)
}

fn is_refused_as_retired(job: &Job) -> bool {
    job.written.as_ref().is_err_and(|said| said == SAID_OF_RETIRED)
}

#[test]
fn each_with_each() {
    let mut met = BTreeSet::new();
    for job in all_jobs().filter(|job| !is_refused_as_retired(job)) {
        let kind = number(word(&job, "--kind", "FloydSteinberg"));
        assert!(DRAWN.contains(&kind));
        let (mode, rounding) = (word(&job, "--mode", "Snes"), word(&job, "--rounding", "truncate"));
        met.insert([job.words[0].clone(), mode.into(), kind.to_string(), rounding.into()]);
    }
    assert_eq!(met.len(), 2 * 16 * DRAWN.len() * 2);
}

#[test]
fn retired_kinds_are_refused_by_name_and_by_number() {
    let (mut passes, mut words, mut modes) = (BTreeSet::new(), BTreeSet::new(), BTreeSet::new());
    let (mut jobs, mut left) = (0, 0);
    for job in all_jobs().filter(is_refused_as_retired) {
        let kind = word(&job, "--kind", "FloydSteinberg");
        assert!(RETIRED.contains(&number(kind)));
        words.insert(kind.to_string());
        passes.insert(job.words[0].clone());
        modes.insert(word(&job, "--mode", "Snes").to_string());
        jobs += 1;
        left += u32::from(job.before.contains_key("out.pam"));
    }
    assert_eq!((jobs, passes.len(), modes.len()), (EACH_WITH_EACH / 10, 2, 16));
    assert!(words.iter().map(String::as_str).eq(["5", "6", "StippleH", "StippleV"]), "{words:?}");
    // An output that stands there, and a place that is free.
    assert!(left > 0 && u64::from(left) < jobs);
}
