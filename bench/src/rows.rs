//! The table of all cases: the original under three conversions, and the port.

use oracle::archive::Archive;
use oracle::case::Call;
use oracle::port::Port;
use quantette::{Conversion, exact, published, with_conversion};

use crate::calls::{self, BAYER};
use crate::cases::{Cases, KINDS, Least, Only, Row};
use crate::lookups;
use crate::subject::{Pictures, Subject, colors};
use crate::timing::medians_of;

/// What the original's columns are called, with the conversion that answers.
const CONVERSIONS: [(&str, Conversion); 3] =
    [("f32", Conversion::PublishedF32), ("exact", Conversion::ExactAnew), ("remembered", Conversion::Exact)];

/// A way to the cube root, with its name.
type Root = (&'static str, fn(u64) -> u64);

pub struct Table<'a> {
    port: &'a Archive,
    runs: usize,
    only: Only,
    /// In each column, for lookups and for pictures.
    least: [[Least; 3]; 2],
}

impl Table<'_> {
    pub fn new(port: &Archive, runs: usize, only: Vec<String>) -> Table<'_> {
        println!("ns a pixel (or a call) of processor time, median of {runs} runs\n");
        let [original, ratio] =
            ["original", "ratio"].map(|what| CONVERSIONS.map(|(name, _)| format!("{what}, {name}")).join(" | "));
        println!("| case | {original} | port | {ratio} |");
        println!("|---{}|", "|---:".repeat(7));
        Table { port, runs, only: Only(only), least: Default::default() }
    }

    /// One row, for one of `count`: times of the original, as far as there are
    /// any, and the port's.
    fn print(&self, name: &str, count: usize, original: [Option<f64>; 3], port: f64) {
        let shown = |value: Option<f64>| value.map_or("-".into(), |v| format!("{v:.2}"));
        let each = |time: Option<f64>| time.map_or("-".into(), |t| format!("{:.1}", t / count as f64));
        let (times, ratios) = (original.map(each), original.map(|time| shown(time.map(|t| t / port))));
        println!("| {name} | {} | {} | {} |", times.join(" | "), each(Some(port)), ratios.join(" | "));
    }

    /// The conversion alone, none remembered: the port against three exact ones
    /// of our own, which differ in their cube roots, and the published one.
    fn conversion_rows(&self) {
        let colors = colors();
        let mut ported = calls::to_oklab(self.port, &colors);
        let mut float = || calls::convert(&colors, &|[r, g, b]| published::to_oklab_f32(r, g, b));
        let roots: [Root; 3] = [
            ("by halving", exact::root_by_halving),
            ("bit by bit", exact::root_by_bits),
            ("by estimate", exact::root_by_estimate),
        ];
        for (root_name, root) in roots {
            let name = format!("to_oklab, root {root_name}");
            if self.only.wants(&name) {
                let mut plain =
                    || calls::convert(&colors, &|[r, g, b]| exact::as_floats(exact::millionths_with(root, r, g, b)));
                let [float, plain, port] = medians_of(self.runs, [&mut float, &mut plain, &mut ported]);
                self.print(&name, colors.len(), [Some(float), Some(plain), None], port);
            }
        }
    }

    /// All rows; a large picture has sides of `large`.
    pub fn fill(&mut self, large: u32) {
        let (runs, pictures) = (self.runs, Pictures::new(large));
        if self.port.has(Call::ToOklab) {
            self.conversion_rows();
        }
        self.common_rows(&pictures, runs);
        self.quantize_rows(&Subject::photo(large, 96, 2), &format!("{large}x{large}"), 256, &KINDS, runs.min(3));
        self.mode_rows(&pictures.photo, "128x128", &KINDS, runs.min(5));
        // What the original remembers and the port does not.
        self.mode_rows(&Subject::repeated(2), "128x68 each colour twice", &[BAYER], runs.min(5));
        self.mode_rows(&Subject::repeated(4), "128x136 each colour four times", &[BAYER], runs.min(5));
        self.mode_rows(&pictures.smooth, "128x128 smooth", &KINDS, runs);
        self.mode_rows(&pictures.few, "128x128 of 12 colours", &KINDS, runs);
        self.grey_rows(&pictures.photo, runs);
    }

    /// What stands below the table: the least ratios, and what was left out.
    pub fn close(&self) {
        println!();
        for (of, least) in ["lookup", "picture"].into_iter().zip(&self.least) {
            for ((name, _), least) in CONVERSIONS.iter().zip(least) {
                least.print(&format!(" of a {of}, {name}"));
            }
        }
        let pictures = [Call::CandidateColorsIn, Call::QuantizePixels, Call::DitherToMode];
        let measured = [Call::ToOklab].into_iter().chain(lookups::CALLS).chain(pictures);
        let absent: Vec<&str> = measured.filter(|&c| !self.port.has(c)).map(Call::name).collect();
        println!("left out: {}", if absent.is_empty() { "nothing".into() } else { absent.join(", ") });
    }
}

impl<'a> Cases<'a> for Table<'a> {
    type Port = Archive;

    /// Measures the original against the port.
    fn row<O: Fn(), P: FnMut()>(&mut self, row: Row, both: impl Fn(&'a Archive) -> (O, P)) {
        let Row { call, name, count, runs } = row;
        if !self.port.has(call) || !self.only.wants(&name) {
            return;
        }
        let (original, mut ported) = both(self.port);
        let original = &original;
        let [mut float, mut anew, mut remembered] =
            CONVERSIONS.map(|(_, conversion)| move || with_conversion(conversion, original));
        let [float, anew, remembered, port] = medians_of(runs, [&mut float, &mut anew, &mut remembered, &mut ported]);
        let times = [float, anew, remembered];
        self.print(&name, count, times.map(Some), port);
        let of = usize::from(!lookups::CALLS.contains(&call));
        for (least, time) in self.least[of].iter_mut().zip(times) {
            least.take(time / port, &name);
        }
    }
}
