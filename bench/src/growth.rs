//! How the time of a call grows with pixels and with candidates: two tables.

use oracle::archive::Archive;
use oracle::case::Call;
use oracle::port::Port;
use quantette::{Conversion, with_conversion};

use crate::calls::{self, BAYER, FLOYD_STEINBERG, Kind, OFF};
use crate::subject::{Subject, palette};
use crate::timing::medians;

pub const KINDS: [Kind; 3] = [OFF, BAYER, FLOYD_STEINBERG];

/// The times of one size: for each kind the original's and the port's, in
/// milliseconds.
pub type Times = [[f64; 2]; 3];

/// A size, what it is called, and its times.
pub type Point = (f64, String, Times);

/// How one call grows with one thing.
pub struct Growth {
    pub title: &'static str,
    /// What grows.
    pub of: &'static str,
    pub points: Vec<Point>,
}

/// A size, what it is called, and the picture that has it.
type Size = (f64, String, Subject);

type Run<'a> = Box<dyn FnMut() + 'a>;

/// The original, with the published conversion, and the port.
fn both<'a>((original, ported): (impl Fn() + 'a, impl FnMut() + 'a)) -> [Run<'a>; 2] {
    [Box::new(move || with_conversion(Conversion::PublishedF32, &original)), Box::new(ported)]
}

/// Times of all sizes and kinds. All of them take turns: a machine that slows
/// down for a while then does not bend the lines.
fn points<'a>(runs: usize, sizes: &'a [Size], call: impl Fn(&'a Subject, Kind) -> [Run<'a>; 2]) -> Vec<Point> {
    let mut each: Vec<Run> =
        sizes.iter().flat_map(|(_, _, subject)| KINDS.map(|kind| call(subject, kind))).flatten().collect();
    let times: Vec<f64> = medians(runs, &mut each).into_iter().map(|time| time / 1e6).collect();
    let points = sizes.iter().zip(times.chunks_exact(2 * KINDS.len()));
    points.map(|((size, name, _), t)| (*size, name.clone(), [0, 1, 2].map(|k| [t[2 * k], t[2 * k + 1]]))).collect()
}

fn with_pixels(port: &Archive, runs: usize) -> Growth {
    let palette = palette(256);
    let sizes =
        [32, 64, 128, 256, 512].map(|side| (f64::from(side * side), format!("{side}²"), Subject::photo(side, 96, 1)));
    let call = |subject, kind| both(calls::quantize_pixels(port, subject, &palette, kind));
    Growth { title: "quantize_pixels, 256 entries", of: "pixels", points: points(runs, &sizes, call) }
}

fn with_candidates(port: &Archive, runs: usize) -> Growth {
    let sizes = [16, 32, 64, 128, 256, 512, 1024, 2048, 4096, 8192].map(|count| {
        let subject = Subject::of_candidates(count);
        assert_eq!(subject.candidates(), count as usize);
        (f64::from(count), count.to_string(), subject)
    });
    let call = |subject, kind| both(calls::dither_to_mode(port, subject, kind));
    Growth { title: "dither_to_mode, 128x64 pixels", of: "candidates", points: points(runs, &sizes, call) }
}

impl Growth {
    /// The power of the size by which a time grows between the last two
    /// points: 1 is in proportion.
    fn power(&self, time: impl Fn(&Times) -> f64) -> f64 {
        let [.., (before, _, earlier), (last, _, later)] = &self.points[..] else { unreachable!("two points") };
        (time(later) / time(earlier)).ln() / (last / before).ln()
    }

    fn print(&self) {
        let kinds = KINDS.map(|(_, _, name)| format!("{name}: original | port | ratio")).join(" | ");
        println!("{}, ms a call:\n", self.title);
        println!("| {} | {kinds} |", self.of);
        println!("|{}", "---:|".repeat(1 + 3 * KINDS.len()));
        for (_, name, times) in &self.points {
            let cells = times.map(|[original, port]| format!("{original:.2} | {port:.2} | {:.2}", original / port));
            println!("| {name} | {} |", cells.join(" | "));
        }
        let powers = [0, 1, 2].map(|k| {
            let [original, port] = [0, 1].map(|who| self.power(|times| times[k][who]));
            format!("{original:.2} | {port:.2} | ")
        });
        println!("| power, last step | {} |\n", powers.join(" | "));
    }
}

/// Measures both and prints the tables.
pub fn measured(port: &Archive, quick: bool) -> Result<[Growth; 2], String> {
    for call in [Call::QuantizePixels, Call::DitherToMode] {
        if !port.has(call) {
            return Err(format!("the port's archive lacks {}", call.name()));
        }
    }
    let runs = if quick { 1 } else { 11 };
    println!("processor time, medians; the original with the published conversion in f32\n");
    let both = [with_pixels(port, runs), with_candidates(port, runs)];
    both.iter().for_each(Growth::print);
    Ok(both)
}
