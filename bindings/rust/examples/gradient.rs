//! Dithers a grey gradient to four greys by a few kinds, then to a mode, and
//! prints both as characters: `cargo run --example gradient`.

use badge_dither::*;

const WIDTH: u32 = 48;
const HEIGHT: u32 = 8;
const PIXELS: usize = (WIDTH * HEIGHT) as usize;

/// Prints one character a pixel, by palette index.
fn print(name: &str, indices: &[u8]) {
    println!("{name}");
    for row in indices.chunks(WIDTH as usize) {
        let line: String = row.iter().map(|&i| [' ', '.', 'o', '#'][usize::from(i) % 4]).collect();
        println!("|{line}|");
    }
}

fn main() -> Result<(), Refusal> {
    let reduction: Vec<u8> = (0..=255).map(|v: u8| v >> 3).collect();
    let scale: Vec<u8> = (0..=255).map(|v: u8| v << 3 | v >> 2).collect();
    let tables = Tables { reduction: &reduction, scale: &scale };

    let grey = |i: usize| (i % WIDTH as usize * 255 / (WIDTH as usize - 1)) as u8;
    let pixels: Vec<u8> = (0..PIXELS).flat_map(|i| [grey(i), grey(i), grey(i), 255]).collect();
    let picture = Picture { width: WIDTH, height: HEIGHT, pixels: &pixels };
    let palette = [0, 10, 21, 31].map(|v| [v, v, v, 255]).concat();

    for (name, kind) in [("off", kind::OFF), ("Bayer 4x4", kind::BAYER_4X4), ("Atkinson", kind::ATKINSON)] {
        let (mut indices, mut out) = ([0; PIXELS], [0; 4 * PIXELS]);
        let mut cells = vec![0; if kind::is_diffusion(kind) { 3 * PIXELS } else { 0 }];
        let output = Output { out: &mut out, cells: &mut cells };
        quantize_pixels(3, Reducing::ByAlpha, kind, picture, tables, &palette, &mut indices, output)?;
        print(name, &indices);
    }

    // Each tile of 8x8 has eight columns of the gradient, so a limit of four is too low for it.
    for limit in [8, 4] {
        let (mut places, mut oklab, mut out) = ([0; 4 * 32], [0.0; 3 * 32], [0; 4 * PIXELS]);
        let (shift, reducing, kind) = (3, Reducing::ByAlpha, kind::OFF);
        let settings = Settings { shift, reducing, kind, origin: [0, 0], tile: [8, 8], limit, color_zero: None };
        let rooms = Rooms { places: &mut places, oklab: &mut oklab };
        match dither_to_mode(settings, picture, tables, rooms, Output { out: &mut out, cells: &mut [] }) {
            Ok(count) => println!("limit {limit}: {count} candidates, every tile within its limit"),
            Err(refusal) => println!("limit {limit}: refused with {refusal}"),
        }
    }
    Ok(())
}
