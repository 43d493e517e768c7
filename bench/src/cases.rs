//! What tables have in common: the cases, with what their rows are called and what
//! is run for them, which rows are wanted, and the least ratio.

use oracle::case::Call;
use oracle::port::Port;

use crate::calls::{self, ATKINSON, BAYER, FLOYD_STEINBERG, Kind, OFF};
use crate::lookups::{self, Asked};
use crate::subject::{GB, NGP, Pictures, SMS, Subject, entries_of, greys, palette};

pub const KINDS: [Kind; 4] = [OFF, BAYER, ATKINSON, FLOYD_STEINBERG];

/// A kind of each way to choose.
const EACH: [Kind; 3] = [OFF, BAYER, FLOYD_STEINBERG];

/// A row, as it is asked for.
pub struct Row {
    pub call: Call,
    pub name: String,
    /// How many pixels or calls a run has; times are shown for one of them.
    pub count: usize,
    pub runs: usize,
}

/// Only rows whose names contain one of these, or, where there is none, all.
pub struct Only(pub Vec<String>);

impl Only {
    pub fn wants(&self, name: &str) -> bool {
        self.0.is_empty() || self.0.iter().any(|part| name.contains(part))
    }
}

/// The least ratio of some rows, with its row.
#[derive(Default)]
pub struct Least(Option<(f64, String)>);

impl Least {
    pub fn take(&mut self, ratio: f64, name: &str) {
        if self.0.as_ref().is_none_or(|(least, _)| ratio < *least) {
            self.0 = Some((ratio, name.into()));
        }
    }

    /// A line that tells it, if there was a row; `of` says of which rows.
    pub fn print(&self, of: &str) {
        if let Some((ratio, row)) = &self.0 {
            println!("least ratio{of}: {ratio:.2} ({row})");
        }
    }
}

/// A table that is filled case by case.
pub trait Cases<'a> {
    type Port: Port + 'a;

    /// Measures a row, if it is wanted. `both` makes the run of the original and
    /// that of a port.
    fn row<O: Fn(), P: FnMut()>(&mut self, row: Row, both: impl Fn(&'a Self::Port) -> (O, P));

    fn quantize_rows(&mut self, subject: &Subject, what: &str, entries: usize, kinds: &[Kind], runs: usize) {
        self.palette_rows(subject, what, &palette(entries), kinds, runs);
    }

    fn palette_rows(&mut self, subject: &Subject, what: &str, palette: &[u8], kinds: &[Kind], runs: usize) {
        for &kind in kinds {
            let name = format!("quantize_pixels {what}, {}, {}", entries_of(palette.len() / 4), kind.2);
            let row = Row { call: Call::QuantizePixels, name, count: subject.count(), runs };
            self.row(row, |port| calls::quantize_pixels(port, subject, palette, kind));
        }
    }

    fn mode_rows(&mut self, subject: &Subject, what: &str, kinds: &[Kind], runs: usize) {
        let found = subject.candidates();
        for &kind in kinds {
            let name = format!("dither_to_mode {what}, {found} candidates, {}", kind.2);
            let row = Row { call: Call::DitherToMode, name, count: subject.count(), runs };
            self.row(row, |port| calls::dither_to_mode(port, subject, kind));
        }
    }

    fn candidate_row(&mut self, subject: &Subject, what: &str, runs: usize) {
        let name = format!("candidate_colors_in {what}, {} candidates", subject.candidates());
        let row = Row { call: Call::CandidateColorsIn, name, count: subject.count(), runs };
        self.row(row, |port| calls::candidate_colors_in(port, subject));
    }

    /// The lookups alone.
    fn lookup_rows(&mut self, entries: usize, runs: usize) {
        let asked = Asked::of(entries);
        for call in lookups::CALLS {
            self.row(asked.row(call, "entries", runs), |port| asked.both(port, call));
        }
    }

    /// The lookups, the candidates, and small pictures with palettes.
    fn common_rows(&mut self, pictures: &Pictures, runs: usize) {
        let Pictures { photo, smooth, few, large } = pictures;
        let sides = format!("{large}x{large}");
        lookups::ENTRIES.into_iter().for_each(|entries| self.lookup_rows(entries, runs));
        self.candidate_row(photo, "128x128", runs);
        self.candidate_row(smooth, "128x128 smooth", runs);
        self.candidate_row(&Subject::photo(*large, 256, 2), &format!("{sides} noise"), runs);
        // One entry and no colour twice: nearly all of it is conversion.
        self.quantize_rows(&Subject::different(128), "128x128 all different", 1, &[OFF], runs);
        self.quantize_rows(&Subject::different(*large), &format!("{sides} all different"), 1, &[OFF], runs);
        for (subject, what) in [(photo, "128x128"), (few, "128x128 of 12 colours")] {
            self.quantize_rows(subject, what, 16, &KINDS, runs);
            self.quantize_rows(subject, what, 256, &KINDS, runs);
        }
    }

    /// Modes that reduce to greys or to opaque colours, with their opaque pixels lent. Ws
    /// is reduced as Ngp is.
    fn grey_rows(&mut self, photo: &Subject, runs: usize) {
        let [gb, ngp, sms] = [GB, NGP, SMS].map(|console| photo.to(console));
        for (subject, what) in [(&gb, "128x128 to Gb"), (&ngp, "128x128 to Ngp"), (&sms, "128x128 to Sms")] {
            self.candidate_row(subject, what, runs);
        }
        self.palette_rows(&gb, "128x128 to Gb", &greys(4), &EACH, runs);
        self.palette_rows(&ngp, "128x128 to Ngp", &greys(8), &EACH, runs);
        for (subject, what) in [(&gb, "128x128 to Gb"), (&ngp, "128x128 to Ngp"), (&sms, "128x128 to Sms")] {
            self.mode_rows(subject, what, &EACH, runs);
        }
    }
}
