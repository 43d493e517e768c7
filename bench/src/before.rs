//! The port beside an older archive of it, in one run, for a change that must not
//! make a call slower. The older one needs the C interface as it is now, as far as
//! the measured calls go; a bracket without positions will do, and so will cells
//! that are floats and pictures that reduce by alpha alone.

use std::path::{Path, PathBuf};

use oracle::case::Call;

use crate::beside::Beside;
use crate::calls;
use crate::cases::{Cases, KINDS, Row};
use crate::library::Library;
use crate::loaded;
use crate::subject::{Pictures, Subject, colors};

/// The two archives, and the table that they fill.
struct Archives<'a> {
    before: &'a Library,
    now: &'a Library,
    table: Beside,
}

impl<'a> Cases<'a> for Archives<'a> {
    type Port = Library;

    /// Measures one archive against the other; the original is not run.
    fn row<O: Fn(), P: FnMut()>(&mut self, row: Row, both: impl Fn(&'a Library) -> (O, P)) {
        let ((_, mut before), (_, mut now)) = (both(self.before), both(self.now));
        self.table.row(row, [&mut before, &mut now]);
    }
}

impl Archives<'_> {
    fn conversion_row(&mut self, runs: usize) {
        let colors = colors();
        let [mut before, mut now] = [self.before, self.now].map(|port| calls::to_oklab(port, &colors));
        let row = Row { call: Call::ToOklab, name: "to_oklab".into(), count: colors.len(), runs };
        self.table.row(row, [&mut before, &mut now]);
    }

    /// Candidates by tables that keep every byte: of the original there is no such
    /// mode, and a red has as many greens as there can be.
    fn kept_row(&mut self, runs: usize) {
        let subject = Subject::kept(256);
        let found = subject.count();
        let [mut before, mut now] = [self.before, self.now].map(|port| calls::collect(port, &subject, found));
        let name = format!("candidate_colors_in 256x256 with every byte kept, {found} candidates");
        self.table.row(Row { call: Call::CandidateColorsIn, name, count: found, runs }, [&mut before, &mut now]);
    }

    /// All rows; those of thousands of candidates, which take long, in fewer runs.
    fn fill(&mut self, pictures: &Pictures, runs: usize, fewer: usize) {
        self.conversion_row(runs);
        self.common_rows(pictures, runs);
        self.kept_row(fewer);
        self.mode_rows(&pictures.photo, "128x128", &KINDS, fewer);
        self.mode_rows(&pictures.smooth, "128x128 smooth", &KINDS, runs);
        self.mode_rows(&pictures.few, "128x128 of 12 colours", &KINDS, runs);
        let reduces = self.before.names_reductions();
        if reduces {
            self.grey_rows(&pictures.photo, runs);
        }
        self.table.close();
        if !reduces {
            println!("left out: modes that reduce to greys or to opaque colours, which are not in the older archive");
        }
    }
}

/// The table: `before` is the older archive, and the port the one that is linked.
pub fn measure(before: &Path, port: &Path, only: Vec<String>, quick: bool) -> Result<(), String> {
    let [before, now] = loaded::both(before, port, Library::of)?;
    let (runs, fewer, large) = if quick { (21, 3, 256) } else { (101, 31, 1024) };
    let pictures = Pictures::new(large);
    let told =
        format!("{runs} runs, of {fewer} with thousands of candidates in dither_to_mode and with every byte kept");
    Archives { before: &before, now: &now, table: Beside::new(&told, only) }.fill(&pictures, runs, fewer);
    Ok(())
}

/// The archive that is linked.
pub fn linked() -> PathBuf {
    std::env::var_os("PORT_LIB").unwrap_or("../crates/exports/out/libexports.a".into()).into()
}
