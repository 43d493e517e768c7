//! `gallery`: every kind that can be chosen on one labelled sheet. With a
//! palette each is the palette's pass, without one the mode pass.

use std::ffi::OsStr;

use badge_dither::Refusal;
use badge_dither::pam::Image;

use crate::names::{KINDS, drawn_kinds};
use crate::options::{self, Console, LIMIT, MODE, ORIGIN, PALETTE, ROUNDING, TILE, ZERO};
use crate::passes::{self, Frame};
use crate::progress::Progress;
use crate::quantize::Palette;
use crate::sheets::{self, Panel};
use crate::trouble::{Trouble, shown};
use crate::words::{Choice, Command, Words};
use crate::{FINE, draw, files, refused};

pub const COMMAND: Command = Command {
    name: "gallery",
    about: "draws a picture by every kind, on one labelled sheet",
    operands: &["IN.pam", "OUT"],
    options: &[&MODE, &PALETTE, &ROUNDING, &TILE, &LIMIT, &ZERO, &ORIGIN],
    run,
};

/// Options of the mode pass, which a palette's pass does not have.
const OF_MODE_PASS: [&Choice; 4] = [&TILE, &LIMIT, &ZERO, &ORIGIN];

/// How each kind is drawn.
enum Pass<'a> {
    Mode(Frame),
    Palette(Palette<'a>),
}

fn pass<'a>(words: &'a Words, console: &Console, name: &OsStr) -> Result<Pass<'a>, Trouble> {
    let Some(palette) = words.value(&PALETTE) else {
        return Ok(Pass::Mode(draw::frame(words, console)?));
    };
    if let Some(option) = words.first_given(&OF_MODE_PASS) {
        return Err(Trouble::usage(format!("{option} is of the mode pass and does not go with --palette")));
    }
    files::apart(name, palette)?;
    Palette::read(palette, console).map(Pass::Palette)
}

/// A kind's drawing.
fn panel(console: &Console, pass: &Pass, kind: u32, image: &Image) -> Result<Panel, Trouble> {
    let caption = KINDS[kind as usize].caption;
    match pass {
        Pass::Palette(palette) => {
            palette.drawn(console, kind, image).map(|(drawn, _)| Panel { caption, drawn, over: None })
        }
        Pass::Mode(frame) => mode_panel(console, frame, kind, image),
    }
}

/// The mode pass. Where a tile is over its limit the library hands no picture
/// out; the same picture is then drawn with tiles of one pixel, which have one
/// colour, and the tile is marked on it.
fn mode_panel(console: &Console, frame: &Frame, kind: u32, image: &Image) -> Result<Panel, Trouble> {
    let caption = KINDS[kind as usize].caption;
    match passes::draw(console, kind, frame, image.picture()) {
        Ok(drawn) => Ok(Panel { caption, drawn, over: None }),
        Err(Refusal::TileOver { tile, .. }) => {
            // Limits 0 and 1 give the same bracket width.
            let single = Frame { tile: [1; 2], limit: frame.limit.max(1), ..*frame };
            let drawn = draw::drawn(console, kind, &single, image.picture())?;
            Ok(Panel { caption, drawn, over: Some((tile, frame.tile)) })
        }
        Err(refusal) => Err(refused::drawing(refusal, kind, frame, image.picture())),
    }
}

fn run(words: &Words) -> Result<u8, Trouble> {
    let [name, out] = words.both();
    let console = options::console(words)?;
    let pass = pass(words, &console, name)?;
    let image = files::picture(name)?;
    let progress = Progress::new();
    let (mut panels, count) = (Vec::new(), drawn_kinds().count());
    for (number, kind) in drawn_kinds() {
        progress.now(format!("drawing {}, {} of {count}", kind.name, panels.len() + 1));
        panels.push(panel(&console, &pass, number, &image)?);
    }
    progress.now(format!("writing {}", shown(out)));
    let sheet = sheets::sheet(image, panels);
    files::ready(out, files::encoded(out, &sheet)?)?.put()?;
    drop(progress);
    files::tell(&[Some(out)], &format!("{}: {}x{}, {count} kinds", shown(out), sheet.width, sheet.height))?;
    Ok(FINE)
}
