//! The worked examples of document 01 that are whole calls, and a few pictures
//! that are easily got wrong, as cases.

pub mod greys;

use crate::case::{Case, LentTables, Quantize, ToMode};
use crate::model;
use crate::original::own_tables;

const BLACK: [u8; 4] = [0, 0, 0, 255];
const WHITE: [u8; 4] = [31, 31, 31, 255];

fn tables() -> LentTables {
    (&own_tables(3, false)).into()
}

/// A picture in one row against a palette, with rubbish in what is lent.
pub fn quantize(kind: u32, palette: &[[u8; 4]], pixels: &[[u8; 4]]) -> Case {
    let cells = if model::is_diffusion(kind) { 3 * pixels.len() } else { 0 };
    Case::QuantizePixels(Quantize {
        shift: 3,
        reducing: model::BY_ALPHA,
        kind,
        width: pixels.len() as u32,
        height: 1,
        tables: tables(),
        palette: palette.concat(),
        pixels: pixels.concat(),
        opaque: vec![],
        indices: vec![0xee; pixels.len()],
        out: vec![0xed; 4 * pixels.len()],
        cells: vec![0x5eed; cells],
    })
}

/// A picture in one row to its mode, with tiles of the given width and room for
/// four candidates.
pub fn to_mode(kind: u32, tile_width: u32, limit: u32, pixels: &[[u8; 4]]) -> Case {
    let cells = if model::is_diffusion(kind) { 3 * pixels.len() } else { 0 };
    Case::DitherToMode(ToMode {
        shift: 3,
        reducing: model::BY_ALPHA,
        kind,
        width: pixels.len() as u32,
        height: 1,
        origin: [0, 0],
        tile: [tile_width, 8],
        limit,
        has_zero: 0,
        zero: [0; 4],
        tables: tables(),
        pixels: pixels.concat(),
        opaque: vec![],
        places: vec![0xee; 16],
        oklab: vec![7.5; 12],
        out: vec![0xed; 4 * pixels.len()],
        cells: vec![0x5eed; cells],
    })
}

fn grey(level: u8) -> [u8; 4] {
    [level, level, level, 255]
}

/// Two pixels, both of which go to black: E7 by Floyd-Steinberg, E8 by Atkinson.
pub fn two_to_black(kind: u32) -> Case {
    quantize(kind, &[BLACK], &[grey(80), grey(0)])
}

/// E9: the second pixel is transparent.
pub fn second_transparent() -> Case {
    quantize(model::FLOYD_STEINBERG, &[BLACK], &[grey(80), [0; 4]])
}

/// A palette of as many different entries, of which there are at most 1,024.
pub fn palette_of(entries: usize) -> Case {
    let palette: Vec<[u8; 4]> = (0..entries).map(|i| [(i % 32) as u8, (i / 32) as u8, 0, 255]).collect();
    quantize(model::OFF, &palette, &[grey(0)])
}

/// Calls of `quantize_pixels`.
pub fn of_quantize() -> Vec<Case> {
    let checker = 4;
    vec![
        two_to_black(model::FLOYD_STEINBERG),
        two_to_black(model::ATKINSON),
        second_transparent(),
        palette_of(256),
        palette_of(257),
        // The twin fills a shortlist of one place, so white is all there is.
        quantize(checker, &[WHITE, WHITE, BLACK], &[grey(128); 4]),
        quantize(checker, &[BLACK, WHITE], &[grey(128); 4]),
        // A transparent entry is chosen and is no transparent pixel.
        quantize(model::OFF, &[WHITE, [0; 4]], &[grey(3), [9, 9, 9, 127], grey(250)]),
    ]
}

/// Calls of `dither_to_mode`: E10, and the tile side of E11.
pub fn of_to_mode() -> Vec<Case> {
    let clear = [200, 100, 50, 127];
    let three = [grey(0), grey(80), grey(160)];
    let mut cases = vec![
        to_mode(model::OFF, 1, 0, &[clear; 3]),
        to_mode(model::OFF, 1, 0, &[clear, clear, grey(128)]),
        to_mode(model::OFF, 0, 1, &[grey(128)]),
    ];
    for kind in [model::OFF, model::ATKINSON, model::FLOYD_STEINBERG] {
        cases.push(to_mode(kind, 3, 3, &three));
        cases.push(to_mode(kind, 3, 2, &three));
    }
    cases
}
