//! Makes the example files: `examples/portrait.pam`, a bust drawn by code, and
//! `examples/palette.pam`, twelve colours for it.
//!
//!   cargo run --release --example portrait [FOLDER]
//!
//! The same command writes the same bytes.

mod scene;

use std::path::PathBuf;
use std::{env, fs, io};

use badge_dither::{Picture, pam};

/// Pixels along a side: a badge's.
const SIDE: u32 = 128;

/// Colours from 0 to 31 in each channel.
#[rustfmt::skip]
const PALETTE: [[u8; 3]; 12] = [
    [7, 8, 15], [13, 11, 15], [20, 16, 16], [28, 22, 17],
    [16, 10, 8], [25, 18, 14], [31, 26, 21], [19, 7, 7],
    [6, 3, 3], [13, 7, 5], [4, 11, 13], [9, 19, 20],
];

fn file(width: u32, height: u32, pixels: &[u8]) -> Vec<u8> {
    pam::write(Picture { width, height, pixels }).expect("a size within the bounds")
}

fn main() -> io::Result<()> {
    let folder = env::args_os().nth(1).map_or_else(|| PathBuf::from("../examples"), PathBuf::from);
    let palette = PALETTE.map(|[r, g, b]| [r << 3 | r >> 2, g << 3 | g >> 2, b << 3 | b >> 2, 255]).concat();
    fs::write(folder.join("portrait.pam"), file(SIDE, SIDE, &scene::portrait(SIDE as usize)))?;
    fs::write(folder.join("palette.pam"), file(PALETTE.len() as u32, 1, &palette))
}
