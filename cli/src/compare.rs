//! `compare`: the gate's question. Have two files the same size and pixels?

use badge_dither::pam::Image;

use crate::trouble::Trouble;
use crate::words::{Command, Words};
use crate::{FINE, files};

pub const COMMAND: Command = Command {
    name: "compare",
    about: "says `same`, or where two pictures differ first and how often",
    operands: &["A.pam", "B.pam"],
    options: &[],
    run,
};

/// The exit status where the two differ.
const DIFFERS: u8 = 1;

fn run(words: &Words) -> Result<u8, Trouble> {
    let [first, second] = words.both();
    files::apart(first, second)?;
    let difference = difference(&files::picture(first)?, &files::picture(second)?);
    files::print(format!("{}\n", difference.as_deref().unwrap_or("same")).as_bytes())?;
    Ok(if difference.is_some() { DIFFERS } else { FINE })
}

/// What is different, if something is.
fn difference(a: &Image, b: &Image) -> Option<String> {
    if (a.width, a.height) != (b.width, b.height) {
        return Some(format!("differs: the sizes are {}x{} and {}x{}", a.width, a.height, b.width, b.height));
    }
    let pairs = || a.pixels.chunks_exact(4).zip(b.pixels.chunks_exact(4)).enumerate();
    let mut different = pairs().filter(|(_, (one, other))| one != other);
    let (at, (one, other)) = different.next()?;
    let (column, row) = (at % a.width as usize, at / a.width as usize);
    Some(format!(
        "differs: first at column {column}, row {row}, {} and {}; {} of {} pixels differ",
        hex(one),
        hex(other),
        1 + different.count(),
        a.pixels.len() / 4
    ))
}

/// A colour's four bytes, red, green, blue, alpha.
fn hex(color: &[u8]) -> String {
    color.iter().fold("#".into(), |text, byte| format!("{text}{byte:02x}"))
}
