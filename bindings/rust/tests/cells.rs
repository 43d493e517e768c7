//! Error cells: what they hold, in sixteenths; that what was lent plays no
//! part; how many are taken; and what a refusal leaves in them.

mod common;

use badge_dither::*;
use common::*;

/// The cells of a grey picture, three pixels a row, that is drawn in one
/// colour. There is one for each pixel: red, green and blue have the same.
fn grey_cells<const N: usize>(kind: u32, color: [u8; 4], levels: [u8; N]) -> [i16; N] {
    let (t, pixels) = (five_bits(), levels.map(grey).concat());
    let picture = Picture { width: 3, height: N as u32 / 3, pixels: &pixels };
    let mut lent = Lent::new(N, kind, 0);
    assert_eq!(lent.quantize(3, kind, picture, t.tables(), &color), Ok(()));
    std::array::from_fn(|i| {
        let red = lent.cells[3 * i];
        assert_eq!(lent.cells[3 * i..3 * i + 3], [red; 3], "pixel {i}");
        red
    })
}

/// A picture drawn in black has these cells, and its negative drawn in white
/// has them with the other sign.
#[track_caller]
fn has_cells<const N: usize>(kind: u32, levels: [u8; N], cells: [i16; N]) {
    assert_eq!(grey_cells(kind, BLACK, levels), cells);
    assert_eq!(grey_cells(kind, WHITE, levels.map(|v| 255 - v)), cells.map(|cell| -cell));
}

#[test]
fn sixteenths_of_either_sign() {
    // Only the first pixel is not black. The third gets 245 sixteenths from
    // Floyd and Steinberg and 180 from Atkinson. It passes on as much as a
    // whole 15 and 11 would, and its cells keep all that it got.
    let levels = [80, 0, 0, 0, 0, 0];
    has_cells(kind::FLOYD_STEINBERG, levels, [0, 560, 245, 505, 524, 341]);
    has_cells(kind::ATKINSON, levels, [0, 160, 180, 180, 224, 92]);
}

#[test]
fn a_half_is_rounded_up() {
    // The second pixel gets 8 sixteenths. Ten and a half counts as 11, as in
    // the document's E6, and 244 and a half as 245.
    assert_eq!(grey_cells(kind::ATKINSON, BLACK, [4, 10, 0]), [0, 8, 8 + 2 * 11]);
    assert_eq!(grey_cells(kind::ATKINSON, WHITE, [251, 245, 255]), [0, -8, -8 - 2 * 10]);
}

#[test]
fn the_ends_of_a_cell() {
    // Every pixel is 255 from its colour. All sixteen weights of Floyd and
    // Steinberg meet at the fifth: 16 * 255.
    has_cells(kind::FLOYD_STEINBERG, [255; 6], [0, 1785, 1785, 2040, 4080, 3315]);
    has_cells(kind::ATKINSON, [255; 9], [0, 510, 1020, 1020, 2040, 2040, 1530, 2550, 2550]);
}

#[test]
fn red_green_and_blue() {
    let (t, pixels) = (five_bits(), [[80, 40, 16, 255], grey(0)].concat());
    for (kind, weight) in [(kind::FLOYD_STEINBERG, 7), (kind::ATKINSON, 2)] {
        let mut lent = Lent::new(2, kind, 0);
        assert_eq!(lent.quantize(3, kind, row(&pixels), t.tables(), &BLACK), Ok(()));
        assert_eq!(lent.cells, [0, 0, 0, 80 * weight, 40 * weight, 16 * weight], "kind {kind}");
    }
}

#[test]
fn cells_of_the_mode_pass() {
    // 64 becomes 66, so that each pixel is 2 too dark, or 3 with what it got.
    let (t, pixels) = (five_bits(), grey(64).repeat(3));
    for (kind, cells) in [(kind::FLOYD_STEINBERG, [0, -14, -21]), (kind::ATKINSON, [0, -4, -8])] {
        let mut lent = Lent::new(3, kind, 1);
        assert_eq!(lent.dither(settings(kind), row(&pixels), t.tables()), Ok(1));
        assert_eq!(lent.cells, cells.map(|cell| [cell; 3]).concat(), "kind {kind}");
    }
}

#[test]
fn what_reaches_colour_zero_stays_there() {
    // 60 becomes 57, and 7 times 3 sixteenths reach the second pixel.
    let (t, pixels) = (five_bits(), [grey(60), grey(128), grey(60)].concat());
    let color_zero = Some(ReducedColor([16, 16, 16, 0]));
    let settings = Settings { color_zero, ..settings(kind::FLOYD_STEINBERG) };
    let mut lent = Lent::new(3, settings.kind, 2);
    assert_eq!(lent.dither(settings, row(&pixels), t.tables()), Ok(2));
    assert_eq!(lent.cells, [0, 21, 0].map(|cell| [cell; 3]).concat());
}

/// What may be lent, by place: the ends of 16 bits, numbers about 0, and all
/// sorts.
const FILLS: [fn(usize) -> i16; 6] =
    [|_| i16::MIN, |_| i16::MAX, |_| -1, |_| 1, |i| [i16::MIN, i16::MAX][i % 2], |i| (i * 40_503) as i16];

/// Slices to lend with the cells filled so.
fn filled(pixels: usize, kind: u32, places: usize, fill: fn(usize) -> i16) -> Lent {
    let mut lent = Lent::new(pixels, kind, places);
    lent.cells.iter_mut().enumerate().for_each(|(i, cell)| *cell = fill(i));
    lent
}

/// What both calls leave of one picture, with transparent pixels in it.
fn drawn(kind: u32, fill: fn(usize) -> i16) -> [Lent; 2] {
    let (t, palette) = (five_bits(), [BLACK, WHITE].concat());
    let pixels: Vec<u8> = (0..64).flat_map(|i| if i % 9 == 4 { CLEAR } else { grey(4 * i as u8) }).collect();
    let picture = Picture { width: 8, height: 8, pixels: &pixels };
    let mut both = [filled(64, kind, 0, fill), filled(64, kind, 32, fill)];
    assert_eq!(both[0].quantize(3, kind, picture, t.tables(), &palette), Ok(()));
    assert!(both[1].dither(settings(kind), picture, t.tables()).is_ok());
    both
}

#[test]
fn what_was_lent_plays_no_part() {
    for kind in DIFFUSING {
        let zeros = drawn(kind, |_| 0);
        for lent in &zeros {
            assert!(lent.cells.iter().all(|cell| (-4080..=4080).contains(cell)) && lent.cells.iter().any(|&c| c != 0));
        }
        for (i, fill) in FILLS.into_iter().enumerate() {
            assert_eq!(drawn(kind, fill), zeros, "kind {kind}, fill {i}");
        }
    }
}

#[test]
fn a_length_counts_cells() {
    let t = five_bits();
    for kind in DRAWN {
        // A pixel's three cells are six bytes: neither 6 nor 12 is a length.
        for length in 0..=12 {
            let right = length == if kind::is_diffusion(kind) { 3 } else { 0 };
            let answer = if right { Ok(()) } else { Err(Refusal::Length) };
            let lent = || Lent { cells: vec![STRAY; length], ..Lent::new(1, kind, 1) };
            let (mut one, mut other) = (lent(), lent());
            let quantized = one.quantize(3, kind, row(&BLACK), t.tables(), &BLACK);
            let dithered = other.dither(settings(kind), row(&BLACK), t.tables()).map(drop);
            assert_eq!((quantized, dithered), (answer, answer), "kind {kind}, {length}");
            assert!(right || (one == lent() && other == lent()), "kind {kind}, {length}");
        }
    }
}

#[test]
fn only_what_is_lent_is_written() {
    // There is room on both sides: an archive from before, which takes floats,
    // writes there and is found out.
    let (t, pixels) = (five_bits(), [grey(80), grey(64)].concat());
    for kind in DIFFUSING {
        let (mut lent, mut one, mut other) = (Lent::new(2, kind, 2), [STRAY; 30], [STRAY; 30]);
        let output = Output { out: &mut lent.out, cells: &mut one[12..18] };
        assert_eq!(
            quantize_pixels(3, Reducing::ByAlpha, kind, row(&pixels), t.tables(), &BLACK, &mut lent.indices, output),
            Ok(())
        );
        let rooms = Rooms { places: &mut lent.places, oklab: &mut lent.oklab };
        let output = Output { out: &mut lent.out, cells: &mut other[12..18] };
        assert_eq!(dither_to_mode(settings(kind), row(&pixels), t.tables(), rooms, output), Ok(2));
        for cells in [one, other] {
            assert!(cells.iter().enumerate().all(|(i, &cell)| (cell == STRAY) != (12..18).contains(&i)), "{cells:?}");
        }
    }
}

#[test]
fn refusals_leave_them() {
    let (t, pixels) = (five_bits(), [grey(0), grey(64), grey(255)].concat());
    for (kind, fill) in DIFFUSING.into_iter().flat_map(|kind| FILLS.map(|fill| (kind, fill))) {
        // Room for two candidates, where there are three.
        let was = filled(3, kind, 2, fill);

        let quantized = |shift, kind, width, palette: &[u8]| {
            let mut lent = was.clone();
            let picture = Picture { width, ..row(&pixels) };
            let number = lent.quantize(shift, kind, picture, t.tables(), palette).unwrap_err().number();
            assert_eq!(lent.cells, was.cells, "kind {kind}, refused with {number}");
            number
        };
        assert_eq!(quantized(6, kind, 3, &BLACK), 1);
        assert_eq!(quantized(3, RETIRED[0], 3, &BLACK), 15);
        assert_eq!(quantized(3, kind, 4097, &BLACK), 2);
        assert_eq!(quantized(3, kind, 2, &BLACK), 3);
        assert_eq!(quantized(3, kind, 3, &[]), 4);

        let dithered = |settings: Settings, width| {
            let mut lent = was.clone();
            let picture = Picture { width, ..row(&pixels) };
            let number = lent.dither(settings, picture, t.tables()).unwrap_err().number();
            assert_eq!(lent.cells, was.cells, "kind {kind}, refused with {number}");
            number
        };
        let ok = settings(kind);
        assert_eq!(dithered(Settings { shift: 6, ..ok }, 3), 1);
        assert_eq!(dithered(Settings { kind: RETIRED[1], ..ok }, 3), 15);
        assert_eq!(dithered(Settings { origin: [u32::MAX; 2], ..ok }, 3), 2);
        assert_eq!(dithered(ok, 2), 3);
        assert_eq!(dithered(Settings { limit: 257, ..ok }, 3), 5);
        assert_eq!(dithered(ok, 3), 7);
    }
}

#[test]
fn a_tile_over_its_limit_leaves_zeros() {
    let (t, pixels) = (five_bits(), [grey(60), grey(60), grey(64), grey(255)].concat());
    for (kind, fill) in DIFFUSING.into_iter().flat_map(|kind| FILLS.map(|fill| (kind, fill))) {
        let settings = Settings { tile: [2, 1], limit: 1, ..settings(kind) };
        let mut lent = filled(4, kind, 3, fill);
        let refusal = lent.dither(settings, row(&pixels), t.tables());
        assert_eq!(refusal, Err(Refusal::TileOver { tile: 1, count: 3 }), "kind {kind}");
        assert_eq!((lent.out, lent.cells), (vec![0; 16], vec![0; 12]), "kind {kind}");
    }
}
