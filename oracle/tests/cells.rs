//! Document 02's eleventh request: a call's cells are signed 16-bit counts of
//! sixteenths, three a pixel. How the original's cells are read as counts, how a call
//! measures and leaves them, how they are lent and written down, and which mistakes in
//! them no comparison could show.

use std::collections::BTreeSet;

use oracle::case::{Call, Case, Quantize, ToMode, Value};
use oracle::cells::{LARGEST, counts, sixteenths};
use oracle::generate::{self, Style};
use oracle::model::{self, ATKINSON, DRAWN, FLOYD_STEINBERG, is_diffusion};
use oracle::reference::expected;
use oracle::text::line;
use oracle::{examples, original};

const BLACK: [u8; 4] = [0, 0, 0, 255];
const GREY: [u8; 4] = [128, 128, 128, 255];

#[test]
fn a_count_is_sixteen_times_the_cell() {
    for count in -LARGEST..=LARGEST {
        assert_eq!(sixteenths(f32::from(count) / 16.0), Ok(count));
    }
}

#[test]
fn what_is_no_count_is_told_and_not_rounded() {
    let between = [0.03, -0.03, 1.0 / 32.0, 254.99, f32::MIN_POSITIVE, f32::from_bits(1)];
    let beyond = [256.0, -256.0, 255.0625, -255.0625, 2047.9375, 2048.0, -2048.0, 4096.0, f32::MAX];
    let no_numbers = [-0.0, f32::NAN, -f32::NAN, f32::INFINITY, f32::NEG_INFINITY];
    for cell in between.into_iter().chain(beyond).chain(no_numbers) {
        let told = sixteenths(cell).expect_err("this is no count");
        assert!(told.contains(&format!("{cell:?}")) && told.contains("no count of sixteenths"), "{told}");
    }
}

#[test]
fn the_first_cell_that_is_no_count_is_named() {
    assert_eq!(counts(&[]), Ok(vec![]));
    assert_eq!(counts(&[0.0, -0.5, 255.0]), Ok(vec![0, -8, 4080]));
    assert!(counts(&[0.0, 1.0, 0.03, f32::NAN]).is_err_and(|told| told.starts_with("cell 2: 0.03 ")));
}

/// What a call leaves in its cells.
fn left(case: &Case) -> Vec<i16> {
    match expected(case).0.pop() {
        Some(("cells", Value::Cells(cells))) => cells,
        other => panic!("cells are the last part of an answer: {other:?}"),
    }
}

/// Of the residual 80 of E7 and E8 the second pixel has 7 sixteenths or 2.
#[test]
fn cells_of_the_worked_examples() {
    for (kind, weight) in [(FLOYD_STEINBERG, 7), (ATKINSON, 2)] {
        assert_eq!(left(&examples::two_to_black(kind)), [[0; 3], [weight * 80; 3]].concat());
    }
}

fn quantize(kind: u32, cells: usize) -> Case {
    let Case::QuantizePixels(case) = examples::quantize(kind, &[BLACK], &[GREY; 4]) else { unreachable!() };
    Case::QuantizePixels(Quantize { cells: vec![-7; cells], ..case })
}

fn to_mode(kind: u32, limit: u32, cells: usize) -> Case {
    let Case::DitherToMode(case) = examples::to_mode(kind, 2, limit, &[GREY; 4]) else { unreachable!() };
    Case::DitherToMode(ToMode { cells: vec![-7; cells], ..case })
}

/// Three a pixel for diffusion and none otherwise: not as many as there are bytes, not
/// one more or fewer.
#[test]
fn cells_are_counted_and_not_their_bytes() {
    for kind in DRAWN {
        let fit = if is_diffusion(kind) { 12 } else { 0 };
        for cells in [0, 1, 4, 11, 12, 13, 24, 48] {
            let number = if cells == fit { 0 } else { 3 };
            assert_eq!(expected(&quantize(kind, cells)).number(), number, "kind {kind}, {cells} cells");
            assert_eq!(expected(&to_mode(kind, 4, cells)).number(), number, "kind {kind}, {cells} cells");
        }
    }
}

#[test]
fn eight_clears_the_cells_and_other_refusals_leave_them() {
    let over = to_mode(FLOYD_STEINBERG, 0, 12);
    assert_eq!((expected(&over).number(), left(&over)), (8, vec![0; 12]));
    let Case::DitherToMode(fine) = to_mode(FLOYD_STEINBERG, 4, 12) else { unreachable!() };
    let refused = [
        (1, ToMode { shift: 6, ..fine.clone() }),
        (1, ToMode { reducing: 1, ..fine.clone() }),
        (15, ToMode { kind: 5, ..fine.clone() }),
        (2, ToMode { width: 4097, ..fine.clone() }),
        (3, ToMode { out: vec![], ..fine.clone() }),
        (5, ToMode { limit: 257, ..fine.clone() }),
        (7, ToMode { places: vec![], oklab: vec![], ..fine }),
    ];
    for (number, case) in refused.map(|(number, case)| (number, Case::DitherToMode(case))) {
        assert_eq!((expected(&case).number(), left(&case)), (number, vec![-7; 12]));
    }
}

fn lent(case: &Case) -> &[i16] {
    match case {
        Case::QuantizePixels(c) => &c.cells,
        Case::DitherToMode(c) => &c.cells,
        _ => unreachable!("no cells"),
    }
}

/// Both ends, every first and every second byte, what pictures leave and what none can.
#[test]
fn random_cases_lend_any_sixteen_bits() {
    for call in [Call::QuantizePixels, Call::DitherToMode] {
        let cases = (0..1000).map(|number| generate::case(call, 1, number, Style::DRIVER));
        let met: BTreeSet<i16> = cases.flat_map(|case| lent(&case).to_vec()).collect();
        assert!(met.contains(&i16::MIN) && met.contains(&i16::MAX));
        for byte in 0..2 {
            assert_eq!(met.iter().map(|c| c.to_be_bytes()[byte]).collect::<BTreeSet<u8>>().len(), 256);
        }
        for range in [i16::MIN..-LARGEST, -LARGEST..0, 1..LARGEST, LARGEST + 1..i16::MAX] {
            assert!(met.range(range.clone()).count() > 100, "{range:?}");
        }
    }
}

#[test]
fn a_cell_is_four_digits_of_the_recorded_list() {
    let Case::QuantizePixels(case) = examples::two_to_black(FLOYD_STEINBERG) else { unreachable!() };
    let case = Case::QuantizePixels(Quantize { cells: vec![-8, 8, 0, i16::MIN, i16::MAX, -1], ..case });
    let written = line(&case, &expected(&case));
    let tokens: Vec<&str> = written.split(' ').collect();
    assert_eq!(tokens[11], "fff80008000080007fffffff");
    assert_eq!(tokens.last(), Some(&"000000000000023002300230"));
}

/// Two mistakes that are none: where a sum is negative it is clipped to 0 however its
/// halves go, and clipping first changes nothing, since 0 and 255 are whole.
#[test]
fn halves_below_zero_and_clipping_first_show_nowhere() {
    for sum in -i32::from(LARGEST)..=4080 + i32::from(LARGEST) {
        let toward_zero = if sum < 0 { -((7 - sum) / 16) } else { (sum + 8) / 16 };
        assert_eq!(toward_zero.clamp(0, 255), i32::from(model::rounded(sum)));
        assert_eq!(model::rounded(sum.clamp(0, 4080)), model::rounded(sum));
        assert_eq!(original::rounded(sum as f32 / 16.0), model::rounded(sum));
    }
}
