//! `draw`: the mode pass over a file.

use badge_dither::Picture;
use badge_dither::pam::Image;

use crate::names::kind_name;
use crate::options::{self, Console, KIND, LIMIT, MODE, ORIGIN, ROUNDING, TILE, ZERO};
use crate::passes::{self, Frame, USUAL_LIMIT};
use crate::progress::Progress;
use crate::trouble::{Trouble, shown};
use crate::words::{Command, Words};
use crate::{FINE, files, refused};

pub const COMMAND: Command = Command {
    name: "draw",
    about: "draws a picture in a console's colours, each tile within its limit",
    operands: &["IN.pam", "OUT"],
    options: &[&MODE, &KIND, &ROUNDING, &TILE, &LIMIT, &ZERO, &ORIGIN],
    run,
};

/// What the options say of the mode pass.
pub fn frame(words: &Words, console: &Console) -> Result<Frame, Trouble> {
    let limit = options::given_limit(words)?.unwrap_or(USUAL_LIMIT);
    let zero = options::zero(words)?.map(|color| passes::reduced(console, &color));
    let zero = zero.transpose().map_err(|refusal| Trouble::refused(refusal, &refused::plain(refusal)))?;
    Ok(Frame { origin: options::origin(words)?, tile: options::tile(words)?, limit, zero })
}

/// The mode pass, with a refusal in words.
pub fn drawn(console: &Console, kind: u32, frame: &Frame, picture: Picture) -> Result<Image, Trouble> {
    passes::draw(console, kind, frame, picture).map_err(|refusal| refused::drawing(refusal, kind, frame, picture))
}

fn run(words: &Words) -> Result<u8, Trouble> {
    let [name, out] = words.both();
    let (console, kind) = (options::console(words)?, options::kind(words)?);
    let frame = frame(words, &console)?;
    let image = files::picture(name)?;
    let size = format!("{}x{}", image.width, image.height);
    let progress = Progress::new();
    progress.now(format!("drawing {size} by {}", kind_name(kind)));
    let drawn = drawn(&console, kind, &frame, image.picture())?;
    progress.now(format!("writing {}", shown(out)));
    files::ready(out, files::encoded(out, &drawn)?)?.put()?;
    drop(progress);
    files::tell(&[Some(out)], &format!("{}: {size}, {}, {}", shown(out), console.mode.name, kind_name(kind)))?;
    Ok(FINE)
}
