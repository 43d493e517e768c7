//! The table of two archives in one run: times before and now.

use crate::cases::{Least, Only, Row};
use crate::timing::medians_of;

pub struct Beside {
    only: Only,
    least: Least,
}

impl Beside {
    /// Begins the table; `runs` says how many runs there are.
    pub fn new(runs: &str, only: Vec<String>) -> Beside {
        println!("ns a pixel (or a call) of processor time, median of {runs}; a ratio above 1 is faster than before\n");
        println!("| case | before | now | ratio |\n|---|---:|---:|---:|");
        Beside { only: Only(only), least: Least::default() }
    }

    /// Measures a row, if it is wanted: the same by the older archive and by the
    /// other.
    pub fn row(&mut self, Row { name, count, runs, .. }: Row, each: [&mut dyn FnMut(); 2]) {
        if self.only.wants(&name) {
            let [before, now] = medians_of(runs, each);
            let [before_each, now_each] = [before, now].map(|time| time / count as f64);
            println!("| {name} | {before_each:.1} | {now_each:.1} | {:.2} |", before / now);
            self.least.take(before / now, &name);
        }
    }

    /// What stands below the table.
    pub fn close(&self) {
        println!();
        self.least.print("");
    }
}
