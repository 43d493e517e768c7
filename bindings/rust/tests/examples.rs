//! The worked examples of the scope document that a call can be asked for, by
//! their names there.

mod common;

use badge_dither::*;
use common::*;

fn rgb(r: u8, g: u8, b: u8) -> NormalizedColor {
    NormalizedColor([r, g, b, 255])
}

#[test]
fn e1_widths() {
    let sixes = [(6, 16, 6), (6, 4, 2), (6, 2, 1), (6, 0, 1), (6, u64::MAX, 16)];
    for (shift, max, width) in [(3, 16, 3), (3, 8, 2), (4, 2, 1), (3, 0, 1), (5, 256, 16)].into_iter().chain(sixes) {
        assert_eq!(bracket_width(shift, max), Ok(width), "shift {shift}, max {max}");
    }
}

#[test]
fn e2_thresholds() {
    assert_eq!(ordered_threshold(kind::BAYER_8X8, 2, 0), Ok(12.5 / 64.0));
    assert_eq!(ordered_threshold(kind::BAYER_4X4, 1, 2), Ok(11.5 / 16.0));
    assert_eq!(ordered_threshold(kind::BAYER_2X2, 5, 2), Ok(2.5 / 4.0));
    assert_eq!(ordered_threshold(kind::LINE_V, 0, 0), Ok(0.75));
}

#[test]
fn e3_shares() {
    let (black, red) = (rgb(0, 0, 0), rgb(10, 0, 0));
    assert_eq!(lerp(black, red, rgb(5, 200, 7), false), 0.5);
    assert_eq!(lerp(black, red, rgb(20, 0, 0), false), 2.0);
    assert_eq!(lerp(black, red, rgb(20, 0, 0), true), 1.0);
    assert_eq!(lerp(red, red, rgb(20, 0, 0), false), 0.0);
}

#[test]
fn e5_black_and_white() {
    assert_eq!(to_oklab(rgb(0, 0, 0)), Oklab { l: 0.0, a: 0.0, b: 0.0 });
    let white = Oklab { l: 1.0, a: 0.0, b: 0.0 };
    assert_eq!(to_oklab(rgb(255, 255, 255)), white);
}

/// The cells of two pixels, 80 and `second`, that are dithered to black.
fn cells_of_two(kind: u32, second: [u8; 4]) -> Vec<i16> {
    let (t, pixels) = (five_bits(), [grey(80), second].concat());
    let mut lent = Lent::new(2, kind, 0);
    assert_eq!(lent.quantize(3, kind, row(&pixels), t.tables(), &BLACK), Ok(()));
    lent.cells
}

#[test]
fn e7_floyd_steinberg() {
    // 560 sixteenths arrive at the second pixel, and 720 are dropped.
    assert_eq!(cells_of_two(kind::FLOYD_STEINBERG, grey(0)), [0, 0, 0, 560, 560, 560]);
}

#[test]
fn e8_atkinson() {
    // 160 sixteenths arrive at the second pixel, 800 are dropped and 320 held back.
    assert_eq!(cells_of_two(kind::ATKINSON, grey(0)), [0, 0, 0, 160, 160, 160]);
}

#[test]
fn e9_second_transparent() {
    // What reaches a pixel that is not dithered stays in its cells.
    assert_eq!(cells_of_two(kind::FLOYD_STEINBERG, CLEAR), [0, 0, 0, 560, 560, 560]);
}

/// The answer for a row in tiles of two pixels.
fn judged(limit: u32, pixels: &[[u8; 4]]) -> Result<usize, Refusal> {
    let (t, bytes) = (five_bits(), pixels.concat());
    let settings = Settings { tile: [2, 8], limit, ..settings(kind::OFF) };
    Lent::new(pixels.len(), kind::OFF, 4).dither(settings, row(&bytes), t.tables())
}

#[test]
fn e10_limits() {
    assert_eq!(judged(0, &[CLEAR; 4]), Ok(0));
    assert_eq!(judged(0, &[CLEAR, CLEAR, CLEAR, grey(0)]), Err(Refusal::TileOver { tile: 1, count: 1 }));
    assert_eq!(judged(1, &[grey(0), grey(0), grey(255), CLEAR]), Ok(2));
    assert_eq!(judged(1, &[grey(0), grey(0), grey(255), grey(0)]), Err(Refusal::TileOver { tile: 1, count: 2 }));
}

#[test]
fn e11_ends_of_bounds() {
    let (t, pixel) = (five_bits(), grey(0));
    for (entries, answer) in [(256, Ok(())), (257, Err(Refusal::Entries)), (0, Err(Refusal::Entries))] {
        let palette = BLACK.repeat(entries);
        assert_eq!(Lent::new(1, 0, 0).quantize(3, 0, row(&pixel), t.tables(), &palette), answer);
    }
    for tile in [[0, 8], [8, 0]] {
        let settings = Settings { tile, ..settings(0) };
        assert_eq!(Lent::new(1, 0, 1).dither(settings, row(&pixel), t.tables()), Err(Refusal::Tiles));
    }
}
