//! `quantize`: a file drawn in a palette's colours.

use std::ffi::OsStr;

use badge_dither::pam::Image;

use crate::names::kind_name;
use crate::options::{self, Console, INDICES, KIND, MODE, PALETTE, ROUNDING};
use crate::progress::Progress;
use crate::trouble::{Trouble, shown};
use crate::words::{Command, Words};
use crate::{FINE, files, passes, refused};

pub const COMMAND: Command = Command {
    name: "quantize",
    about: "draws a picture in a palette's colours",
    operands: &["IN.pam", "OUT"],
    options: &[&PALETTE, &MODE, &KIND, &ROUNDING, &INDICES],
    run,
};

/// A palette's file, and its entries reduced by the mode.
pub struct Palette<'a> {
    pub name: &'a OsStr,
    pub image: Image,
    pub entries: Vec<u8>,
}

impl Palette<'_> {
    pub fn read<'a>(name: &'a OsStr, console: &Console) -> Result<Palette<'a>, Trouble> {
        let image = files::picture(name)?;
        let entries = passes::palette(console, &image);
        let entries = entries.map_err(|refusal| Trouble::refused(refusal, &refused::plain(refusal)))?;
        Ok(Palette { name, image, entries })
    }

    fn counted(&self) -> String {
        match self.entries.len() / 4 {
            1 => "1 entry".into(),
            count => format!("{count} entries"),
        }
    }

    /// The palette's pass, with a refusal in words.
    pub fn drawn(&self, console: &Console, kind: u32, image: &Image) -> Result<(Image, Vec<u8>), Trouble> {
        let drawn = passes::quantize(console, kind, &self.entries, image.picture());
        drawn.map_err(|refusal| refused::quantizing(refusal, kind, self.name, &self.image, image.picture()))
    }
}

/// Writes the picture and the indices: both are complete before either takes
/// its place.
fn write(out: &OsStr, drawn: &Image, indices: Option<(&OsStr, Vec<u8>)>) -> Result<(), Trouble> {
    let mut ready = vec![files::ready(out, files::encoded(out, drawn)?)?];
    ready.extend(indices.map(|(name, bytes)| files::ready(name, bytes)).transpose()?);
    files::put_all(ready)
}

fn run(words: &Words) -> Result<u8, Trouble> {
    let ([name, out], second) = (words.both(), words.value(&INDICES));
    let Some(palette) = words.value(&PALETTE) else {
        return Err(Trouble::usage("--palette PALETTE.pam is missing: its pixels are the palette's entries"));
    };
    files::apart(name, palette)?;
    second.map_or(Ok(()), |second| files::different(out, second))?;
    let (console, kind) = (options::console(words)?, options::kind(words)?);
    let palette = Palette::read(palette, &console)?;
    let image = files::picture(name)?;
    let size = format!("{}x{}", image.width, image.height);
    let progress = Progress::new();
    progress.now(format!("drawing {size} by {}", kind_name(kind)));
    let (drawn, indices) = palette.drawn(&console, kind, &image)?;
    progress.now(format!("writing {}", shown(out)));
    write(out, &drawn, second.map(|name| (name, indices)))?;
    drop(progress);
    let line = format!("{}: {size}, {}, {}, {}", shown(out), console.mode.name, kind_name(kind), palette.counted());
    files::tell(&[Some(out), second], &line)?;
    Ok(FINE)
}
