//! Document 01's worked examples, held to the original and to the model.

use oracle::account::{account, loss};
use oracle::case::{Answer, Case, Value};
use oracle::examples;
use oracle::model::{self, ATKINSON, FLOYD_STEINBERG, Lent, Picture, Pixel};
use oracle::original::{self, own_tables};
use oracle::reference::expected;

fn tile(answer: &Answer) -> Option<u32> {
    answer.0.iter().find(|(name, _)| *name == "tile").and_then(|(_, value)| match value {
        Value::Word32(tile) => *tile,
        _ => None,
    })
}

#[test]
fn e1_widths() {
    for (shift, max, width) in [(3, 16, 3), (3, 8, 2), (4, 2, 1), (3, 0, 1), (5, 256, 16), (6, 4, 2), (6, 1, 1)] {
        assert_eq!(original::bracket_width(shift, max), width);
        assert_eq!(model::bracket_width(shift, max), width);
    }
}

#[test]
fn e2_thresholds() {
    for (kind, x, y, value) in [(3, 2, 0, 12.5 / 64.0), (2, 1, 2, 11.5 / 16.0), (1, 5, 2, 2.5 / 4.0), (7, 0, 0, 0.75)] {
        assert_eq!(original::threshold(kind, x, y), value);
        assert_eq!(model::threshold(kind, x, y), Some(value));
    }
}

#[test]
fn e3_lerps() {
    let (black, red) = ([0, 0, 0], [10, 0, 0]);
    for (color, clamp, value) in [([5, 200, 7], false, 0.5), ([20, 0, 0], false, 2.0), ([20, 0, 0], true, 1.0)] {
        assert_eq!(original::lerp(black, red, color, clamp), value);
        assert_eq!(model::lerp(black, red, color, clamp), value);
    }
    assert_eq!(original::lerp(red, red, black, true), 0.0);
    assert_eq!(model::lerp(red, red, black, true), 0.0);
}

#[test]
fn minus_zero_stays() {
    let (high, low) = ([10, 10, 10], [5, 5, 5]);
    for clamp in [false, true] {
        assert_eq!(original::lerp(high, low, high, clamp).to_bits(), (-0.0f32).to_bits());
        assert_eq!(model::lerp(high, low, high, clamp).to_bits(), (-0.0f32).to_bits());
    }
}

#[test]
fn e4_linear_values() {
    let table = quantette::exact::linear_table();
    assert_eq!([table[0], table[1], table[10], table[255]], [0, 30_353, 303_527, 100_000_000]);
}

#[test]
fn e5_black_and_white() {
    assert_eq!(original::to_oklab([0; 3]), [0.0; 3]);
    assert_eq!(original::to_oklab([255; 3]), [1.0, 0.0, 0.0]);
}

#[test]
fn e6_biased_and_loss() {
    for (source, cell, biased, lost) in [(10u8, 8i16, 11, -8), (250, 320, 255, 240)] {
        assert_eq!(model::rounded(16 * i32::from(source) + i32::from(cell)), biased);
        assert_eq!(original::rounded(f32::from(source) + f32::from(cell) / 16.0), biased);
        let pixel = Pixel { source: [source; 3], cell: [cell; 3], biased: [biased; 3], ..Pixel::default() };
        assert_eq!(loss(&pixel, 0), lost);
    }
}

/// The five terms of a case of `quantize_pixels`, the same in each channel.
fn terms(case: &Case) -> [i64; 5] {
    let Case::QuantizePixels(c) = case else { panic!() };
    let tables = own_tables(3, false);
    let ours = model::quantize_pixels(c.lent(&tables), c.kind, [c.width, c.height], &c.palette);
    let theirs = expected(case);
    assert_eq!(theirs.0[1].1, Value::Bytes(ours.indices));
    assert_eq!(theirs.0[2].1, Value::Bytes(ours.out));
    assert_eq!(theirs.0[3].1, Value::Cells(ours.cells));
    let picture = bare(c.kind, [c.width, c.height], c.lent(&tables));
    let all: Vec<[i64; 5]> = (0..3)
        .map(|channel| {
            let a = account(&picture, &ours.drawn, channel);
            assert!(a.balances());
            [a.source_less_chosen, a.losses, a.to_skipped, a.dropped, a.held_back]
        })
        .collect();
    assert!(all[0] == all[1] && all[1] == all[2]);
    all[0]
}

fn bare(kind: u32, [width, height]: [u32; 2], lent: Lent<'_>) -> Picture<'_> {
    Picture { kind, width, height, origin: [0, 0], zero: None, lent, candidates: &[], bracket_width: 1 }
}

#[test]
fn e7_floyd_steinberg() {
    assert_eq!(terms(&examples::two_to_black(FLOYD_STEINBERG)), [1280, 0, 0, 720 + 560, 0]);
}

#[test]
fn e8_atkinson() {
    assert_eq!(terms(&examples::two_to_black(ATKINSON)), [1280, 0, 0, 800 + 120, 320 + 40]);
}

#[test]
fn e9_second_pixel_transparent() {
    assert_eq!(terms(&examples::second_transparent()), [1280, 0, 560, 720, 0]);
}

#[test]
fn e10_tiles() {
    let answers: Vec<Answer> = examples::of_to_mode().iter().map(expected).collect();
    let numbers: Vec<u32> = answers.iter().map(Answer::number).collect();
    assert_eq!(numbers[..2], [0, 8]);
    assert_eq!(tile(&answers[1]), Some(2));
    assert_eq!(numbers[3..], [0, 8, 0, 8, 0, 8]);
}

#[test]
fn e11_bounds() {
    assert_eq!(expected(&examples::palette_of(256)).number(), 0);
    assert_eq!(expected(&examples::palette_of(257)).number(), 4);
    assert_eq!(expected(&examples::of_to_mode()[2]).number(), 5);
}

#[test]
fn twins_fill_a_short_shortlist() {
    let answers: Vec<Answer> = examples::of_quantize().iter().map(expected).collect();
    assert_eq!(answers[5].0[1].1, Value::Bytes(vec![0; 4]));
    assert_eq!(answers[6].0[1].1, Value::Bytes(vec![1, 0, 1, 0]));
    assert_eq!(answers[7].0[1].1, Value::Bytes(vec![1, 0, 0]));
}
