//! The driver: puts cases to a port and compares its answers with those that
//! it must give.

use crate::case::{Answer, Call, Case};
use crate::generate::{self, Style};
use crate::lumas;
use crate::port::{Port, run};
use crate::reference::expected;
use crate::text::{describe, differences};

/// What a run compared and found.
pub struct Report {
    /// Cases compared, for each call in the order of `Call::ALL`.
    pub compared: [u64; 12],
    /// How often each number was the expected one, of which 15 is the largest.
    pub numbers: [u64; 16],
    pub found: Vec<String>,
    /// The run ends once this many differences are found.
    pub enough: usize,
}

impl Report {
    pub fn new(enough: usize) -> Report {
        Report { compared: [0; 12], numbers: [0; 16], found: Vec::new(), enough }
    }

    pub fn full(&self) -> bool {
        self.found.len() >= self.enough
    }

    fn note(&mut self, name: &str, case: &Case, expected: &Answer, got: &Answer) {
        self.compared[case.call() as usize] += 1;
        self.numbers[expected.number() as usize] += 1;
        if expected != got {
            self.found.push(format!("{name}: {}\n    {}", describe(case), differences(expected, got)));
        }
    }

    /// Puts one case to a port that has its call.
    pub fn compare(&mut self, port: &impl Port, name: &str, case: &Case) {
        if port.has(case.call()) && !self.full() {
            self.note(name, case, &expected(case), &run(port, case));
        }
    }

    /// Which calls were compared, with how many cases, and which were left out.
    pub fn summary(&self) -> String {
        let parts = |there: bool| {
            let calls = Call::ALL.into_iter().filter(|&c| (self.compared[c as usize] > 0) == there);
            let texts = calls.map(|c| match self.compared[c as usize] {
                0 => c.name().to_string(),
                count => format!("{} {count}", c.name()),
            });
            texts.collect::<Vec<String>>().join(", ")
        };
        let or_none = |text: String| if text.is_empty() { "nothing".into() } else { text };
        format!("compared: {}; left out: {}", or_none(parts(true)), or_none(parts(false)))
    }

    /// How many cases each number had.
    pub fn number_counts(&self) -> String {
        let counts = self.numbers.iter().enumerate().filter(|(_, count)| **count > 0);
        counts.map(|(number, count)| format!("{number}: {count}")).collect::<Vec<String>>().join(", ")
    }

    pub fn any_compared(&self) -> bool {
        self.compared.iter().any(|&count| count > 0)
    }
}

/// Random cases `from..to` of the wanted calls.
pub fn random(report: &mut Report, port: &impl Port, calls: &[Call], seed: u64, from: u64, to: u64) {
    for number in from..to {
        port.null_for_empty(number % 2 == 0);
        for &call in calls.iter().filter(|&&call| port.has(call)) {
            let case = generate::case(call, seed, number, Style::DRIVER);
            report.compare(port, &format!("seed {seed} case {number}"), &case);
        }
        if report.full() {
            break;
        }
    }
}

/// The fixed cases at the largest bounds.
pub fn corners(report: &mut Report, port: &impl Port, calls: &[Call]) {
    for (number, case) in generate::corners().iter().enumerate() {
        if calls.contains(&case.call()) {
            report.compare(port, &format!("corner {number}"), case);
        }
    }
}

/// All 2^24 colours.
pub fn all_colors(report: &mut Report, port: &impl Port) {
    for n in 0..1u32 << 24 {
        let [_, r, g, b] = n.to_be_bytes();
        report.compare(port, "all colours", &Case::ToOklab([r, g, b]));
    }
}

/// The luma of all 2^24 colours as opaque pixels: what is known of the original's, and
/// through the port in two calls.
pub fn all_lumas(report: &mut Report, port: &impl Port) {
    let lumas = lumas::all();
    report.found.extend(lumas::wrong(&lumas));
    for (luma, opaque) in (0..).zip(lumas::pictures(&lumas)) {
        for case in lumas::cases(luma, &opaque) {
            report.compare(port, &format!("all colours of luma {luma}"), &case);
        }
    }
}

/// Every kind, the retired ones among them, and kinds above 10, at 16x16 places,
/// near 0 and near the end.
pub fn all_thresholds(report: &mut Report, port: &impl Port) {
    for kind in (0..16).chain([255, 256, 257, 266, u32::MAX]) {
        for place in 0..256u32 {
            let (x, y) = (place % 16, place / 16);
            report.compare(port, "all thresholds", &Case::OrderedThreshold { kind, x, y });
            let [x, y] = [u32::MAX - x, u32::MAX - y];
            report.compare(port, "all thresholds", &Case::OrderedThreshold { kind, x, y });
        }
    }
}

/// Every max to 70,000, around powers of two, at the end of u64, and bad shifts.
pub fn all_widths(report: &mut Report, port: &impl Port) {
    let powers = (17..64).flat_map(|bit| (0..5).map(move |d| (1u64 << bit) + d - 2));
    let maxes: Vec<u64> = (0..=70_000).chain(powers).chain((0..64).map(|d| u64::MAX - d)).collect();
    for shift in 3..=6 {
        for &max in &maxes {
            report.compare(port, "all widths", &Case::BracketWidth { shift, max });
        }
    }
    let ends = [259, 262, 65_539, 65_542, 1 << 31 | 3, 1 << 31 | 6, u32::MAX - 1, u32::MAX];
    for shift in (0..40).chain(ends).filter(|s| !(3..=6).contains(s)) {
        for max in [0, 1, 16, 256, u64::MAX] {
            report.compare(port, "all widths", &Case::BracketWidth { shift, max });
        }
    }
}

/// A grid of ends and colours in which numerators of every sign occur, zeros of
/// both signs among them.
pub fn lerp_grid(report: &mut Report, port: &impl Port) {
    let steps: [u8; 4] = [0, 1, 128, 255];
    let color = |n: usize| [steps[n % 4], steps[n / 4 % 4], steps[n / 16]];
    for n in 0..64 * 64 * 64 {
        let colors = [color(n % 64), color(n / 64 % 64), color(n / 4096)];
        for clamp in [0, 1] {
            report.compare(port, "lerp grid", &Case::Lerp { colors, clamp });
        }
    }
    // All ends and colours along one channel.
    for n in 0..1u32 << 24 {
        let [clamp, from, to, at] = (n | (n & 1) << 24).to_be_bytes();
        let colors = [[7, from, 9], [7, to, 9], [7, at, 9]];
        report.compare(port, "lerp line", &Case::Lerp { colors, clamp: clamp.into() });
    }
}
