//! Document 02's fifth request: each call on pictures names its reduction, by alpha, to
//! a grey or to an opaque colour, and is lent opaque pixels for the last two. What the
//! original is asked for them, what is refused, what plays no part, and that random and
//! recorded cases have what shows it.

use std::collections::BTreeSet;

use oracle::case::{Answer, Call, Case, ToMode, Value};
use oracle::color::NormalizedColor;
use oracle::examples::greys::{self, DARKER, DELICATE, LUMAS_OF_GREYS, small_with};
use oracle::generate::{self, Style};
use oracle::hooks::{Opaque, lent_opaque, with_opaque};
use oracle::model::{self, BY_ALPHA, GREY, OFF, OPAQUE_COLOR, PAIRINGS, REDUCTIONS, RETIRED};
use oracle::original::{self, How, modes_of, own_opaque, own_tables};
use oracle::record::{MOST_BYTES, cases_of, list};
use oracle::reference::expected;
use oracle::text::{line, tables_line};

const PICTURES: [Call; 3] = [Call::CandidateColorsIn, Call::QuantizePixels, Call::DitherToMode];

fn number(case: &Case) -> u32 {
    expected(case).number()
}

/// Bytes of opaque pixels that fit one pixel.
fn fitting(reducing: u32) -> usize {
    if reducing == BY_ALPHA { 0 } else { 4 }
}

fn parts(case: &Case) -> (&[u8], &[u8]) {
    match case {
        Case::CandidateColorsIn(c) => (&c.pixels, &c.opaque),
        Case::QuantizePixels(c) => (&c.pixels, &c.opaque),
        Case::DitherToMode(c) => (&c.pixels, &c.opaque),
        _ => unreachable!("on no picture"),
    }
}

fn with_opaque_bytes(mut case: Case, bytes: Vec<u8>) -> Case {
    match &mut case {
        Case::CandidateColorsIn(c) => c.opaque = bytes,
        Case::QuantizePixels(c) => c.opaque = bytes,
        Case::DitherToMode(c) => c.opaque = bytes,
        _ => unreachable!("on no picture"),
    }
    case
}

fn value<'a>(answer: &'a Answer, name: &str) -> &'a Value {
    &answer.0.iter().find(|(part, _)| *part == name).unwrap().1
}

// Luma.

#[test]
fn luma_of_greys_is_their_level_or_the_one_below() {
    for level in 0..=255 {
        let luma = if DARKER.contains(&level) { level - 1 } else { level };
        assert_eq!([original::luma([level; 3]), model::luma([level; 3])], [luma; 2]);
    }
}

#[test]
fn luma_of_delicate_colors_is_one_more_by_other_steps() {
    for color in DELICATE {
        let luma = original::luma(color);
        assert_eq!(model::luma(color), luma);
        let [r, g, b] = color.map(|v| f32::from(v) / 255.0);
        let turned = b * 0.0722 + g * 0.7152 + r * 0.2126;
        let fused = b.mul_add(0.0722, g.mul_add(0.7152, r * 0.2126));
        let [r, g, b] = color.map(f64::from);
        let unrounded = 0.2126 * r + 0.7152 * g + 0.0722 * b;
        assert_eq!([turned * 255.0, fused * 255.0, unrounded as f32].map(|v| v as u8), [luma + 1; 3], "{color:?}");
    }
}

#[test]
fn the_candidates_of_all_greys_are_their_lumas() {
    let answer = expected(&greys::of(Call::CandidateColorsIn)[0]);
    let lacking = |level: &u8| DARKER.contains(level) && *level != 185;
    let lumas: Vec<u8> = (0..=255).filter(|level| !lacking(level)).flat_map(|v| [v, v, v, 255]).collect();
    assert_eq!(*value(&answer, "count"), Value::Word32(Some(LUMAS_OF_GREYS as u32)));
    assert_eq!(*value(&answer, "places"), Value::Bytes(lumas));
}

// What is refused.

#[test]
fn a_pairing_is_a_mode_of_the_original() {
    let named: usize = PAIRINGS.iter().map(|&[shift, reducing]| modes_of(shift, reducing).len()).sum();
    assert_eq!(named, 16);
    let reductions = REDUCTIONS.into_iter().chain([3, 4, 255, 256, 257, u32::MAX]);
    for (shift, reducing) in reductions.flat_map(|r| (0..=8).chain([259, 262, u32::MAX]).map(move |s| (s, r))) {
        let there = !modes_of(shift, reducing).is_empty();
        assert_eq!(PAIRINGS.contains(&[shift, reducing]), there);
        for case in PICTURES.map(|call| small_with(call, shift, reducing, fitting(reducing))) {
            assert_eq!(number(&case), if there { 0 } else { 1 }, "{case:?}");
        }
    }
}

#[test]
fn one_comes_before_fifteen_and_all_others() {
    for [shift, reducing] in [[3, 1], [4, 2], [5, 2], [6, 0], [6, 3]] {
        for case in [Call::QuantizePixels, Call::DitherToMode].map(|call| small_with(call, shift, reducing, 7)) {
            for kind in RETIRED {
                assert_eq!(number(&case.clone().with_kind(kind)), 1);
            }
        }
    }
    for kind in RETIRED {
        assert_eq!(number(&small_with(Call::QuantizePixels, 6, GREY, 0).with_kind(kind)), 15);
    }
}

#[test]
fn three_measures_the_opaque_pixels() {
    for [shift, reducing] in PAIRINGS {
        for bytes in [0, 1, 3, 4, 5, 8] {
            let said = if bytes == fitting(reducing) { 0 } else { 3 };
            for case in PICTURES.map(|call| small_with(call, shift, reducing, bytes)) {
                assert_eq!(number(&case), said, "{case:?}");
            }
        }
    }
}

#[test]
fn widths_have_the_shifts_of_all_modes() {
    for shift in (0..=8).chain([259, u32::MAX]) {
        let said = if (3..=6).contains(&shift) { 0 } else { 1 };
        assert_eq!(number(&Case::BracketWidth { shift, max: 16 }), said, "{shift}");
    }
}

// What plays a part, and what does not.

/// Accepted random pictures that are not reduced by alpha.
fn opaque_cases(call: Call) -> impl Iterator<Item = Case> {
    let cases = (0..600).map(move |number| generate::case(call, 5, number, Style::DRIVER));
    cases.filter(|case| case.pairing().unwrap()[1] != BY_ALPHA && matches!(number(case), 0 | 7 | 8))
}

#[test]
fn the_alpha_of_an_opaque_pixel_is_never_read() {
    for case in PICTURES.into_iter().flat_map(opaque_cases) {
        let mut other = parts(&case).1.to_vec();
        other.iter_mut().skip(3).step_by(4).for_each(|alpha| *alpha ^= 0xff);
        assert_eq!(expected(&case), expected(&with_opaque_bytes(case, other)));
    }
}

/// The palette's pass asks only whether a pixel is transparent, and none is.
#[test]
fn opaque_pixels_play_no_part_in_quantize_pixels() {
    for case in opaque_cases(Call::QuantizePixels) {
        let other = parts(&case).1.iter().map(|v| v.wrapping_mul(7) ^ 0x5a).collect();
        assert_eq!(expected(&case), expected(&with_opaque_bytes(case, other)));
    }
    for kind in [OFF, model::FLOYD_STEINBERG] {
        let Value::Bytes(indices) = value(&expected(&greys::quantize(kind)), "indices").clone() else { panic!() };
        assert_eq!(indices, [0, 1, 2, 3]);
    }
}

#[test]
fn colour_zero_is_asked_of_the_opaque_pixel() {
    for [shift, reducing] in [[5, GREY], [6, GREY], [6, OPAQUE_COLOR]] {
        let answer = expected(&greys::zero(OFF, [shift, reducing]));
        // The first stays black, though it is white; the second, black, is dithered and
        // so goes to black, though what is lent for it is white.
        assert_eq!(*value(&answer, "out"), Value::Bytes([[0, 0, 0, 255]; 2].concat()));
        assert_eq!(*value(&answer, "count"), Value::Word32(Some(2)));
        let Case::DitherToMode(case) = greys::zero(OFF, [shift, reducing]) else { unreachable!() };
        let answer = expected(&Case::DitherToMode(ToMode { has_zero: 0, ..case }));
        assert_eq!(*value(&answer, "out"), Value::Bytes([[255; 4], [0, 0, 0, 255]].concat()));
    }
}

#[test]
fn transparent_pixels_are_drawn_and_count() {
    for pairing in [[5, GREY], [6, GREY], [6, OPAQUE_COLOR]] {
        let [fits, over] = [3, 2].map(|limit| expected(&greys::transparent_tile(limit, pairing)));
        assert_eq!([fits.number(), over.number()], [0, 8]);
        let Value::Bytes(out) = value(&fits, "out") else { panic!() };
        assert!(out.iter().skip(3).step_by(4).all(|&alpha| alpha == 255));
        assert!(out[0] < out[4] && out[4] < out[8]);
    }
}

// How the original is asked.

/// In each of the sixteen modes, by either rounding: lending it its own tables and opaque
/// pixels changes nothing.
#[test]
fn lent_answers_are_the_originals_own() {
    let case = |call| generate::case(call, 9, 4, Style { side: 12, ..Style::RECORDER });
    let Case::DitherToMode(case) = case(Call::DitherToMode) else { unreachable!() };
    for [shift, reducing] in PAIRINGS {
        let opaque = if reducing == BY_ALPHA { vec![] } else { own_opaque(&case.pixels) };
        for (&mode, nearest) in modes_of(shift, reducing).iter().flat_map(|mode| [(mode, false), (mode, true)]) {
            let case = ToMode { shift, reducing, opaque: opaque.clone(), ..case.clone() };
            let tables = own_tables(shift, nearest);
            let lent = How { mode, ..How::lent(case.lent(&tables)) };
            let [lent, own] = [lent, How::own(mode, nearest)]
                .map(|how| original::candidate_colors_in(how, case.width, case.height, &case.pixels));
            assert_eq!(lent, own, "{mode:?}");
        }
    }
}

fn colors(count: u8) -> Vec<NormalizedColor> {
    (0..count).map(|k| NormalizedColor::new(k, 2 * k, 3 * k, 255)).collect()
}

fn lend(collects: bool, run: impl FnOnce()) {
    with_opaque(Opaque::new(colors(3), colors(3), collects), run);
}

#[test]
fn pixels_in_step_get_what_is_lent() {
    let (pixels, lent) = (vec![NormalizedColor::new(1, 1, 1, 1); 2], colors(2));
    with_opaque(Opaque::new(pixels.clone(), lent.clone(), true), || {
        assert_eq!([0, 1].map(|i| lent_opaque(pixels[i])), [0, 1].map(|i| Some(lent[i])));
        for i in [1, 0] {
            oracle::hooks::ask(i);
            assert_eq!(lent_opaque(pixels[i]), Some(lent[i]));
        }
    });
    assert_eq!(lent_opaque(pixels[0]), None);
}

#[test]
#[should_panic(expected = "not the colour of pixel 0")]
fn another_colour_ends_the_run() {
    lend(true, || _ = lent_opaque(colors(3)[1]));
}

#[test]
#[should_panic(expected = "not asked for")]
fn a_pixel_that_was_not_asked_for_ends_the_run() {
    lend(false, || _ = lent_opaque(colors(3)[0]));
}

#[test]
#[should_panic(expected = "before all are collected")]
fn drawing_before_all_are_collected_ends_the_run() {
    lend(true, || oracle::hooks::ask(0));
}

#[test]
#[should_panic(expected = "before pixel Some(0) is reduced")]
fn a_pixel_that_is_passed_over_ends_the_run() {
    lend(false, || [0, 1].into_iter().for_each(oracle::hooks::ask));
}

#[test]
#[should_panic(expected = "ends before all pixels are collected")]
fn too_few_pixels_end_the_run() {
    lend(true, || _ = lent_opaque(colors(3)[0]));
}

#[test]
#[should_panic(expected = "ends before a pixel is reduced that was asked for")]
fn a_mode_that_reduces_by_alpha_ends_the_run() {
    lend(false, || oracle::hooks::ask(2));
}

// What cases have.

/// What a case with this number shows of the request.
fn shows((case, number): &(Case, u32)) -> Vec<&'static str> {
    let ([_, reducing], (pixels, opaque)) = (case.pairing().unwrap(), parts(case));
    let by_alpha = reducing == BY_ALPHA;
    let for_opaque = *number == 3 && expected(&with_opaque_bytes(case.clone(), fitted(case))).number() != 3;
    let lent = matches!(number, 0 | 8) && !by_alpha && !pixels.is_empty();
    let transparent = pixels.chunks_exact(4).any(|p| p[3] < 128);
    let said = [
        ("a pairing that there is not", *number == 1 && REDUCTIONS.contains(&reducing)),
        ("opaque pixels by alpha", for_opaque && by_alpha),
        ("no opaque pixels", for_opaque && opaque.is_empty()),
        ("too many or too few opaque pixels", for_opaque && !by_alpha && !opaque.is_empty()),
        ("a transparent pixel that counts", lent && transparent),
        ("opaque_threshold's own results", lent && transparent && opaque == own_opaque(pixels)),
        ("the pixels themselves", lent && transparent && opaque == pixels),
        ("other colours", lent && !same_colors(opaque, pixels)),
    ];
    said.into_iter().filter(|(_, holds)| *holds).map(|(name, _)| name).collect()
}

fn numbered(cases: impl Iterator<Item = Case>) -> Vec<(Case, u32)> {
    cases.map(|case| (case.clone(), number(&case))).collect()
}

fn all_shown(cases: &[(Case, u32)]) -> BTreeSet<&'static str> {
    cases.iter().flat_map(shows).collect()
}

/// The pairings of the cases that have a number.
fn pairings(cases: &[(Case, u32)], wanted: u32) -> BTreeSet<[u32; 2]> {
    cases.iter().filter(|(_, number)| *number == wanted).map(|(case, _)| case.pairing().unwrap()).collect()
}

fn fitted(case: &Case) -> Vec<u8> {
    let [_, reducing] = case.pairing().unwrap();
    if reducing == BY_ALPHA { vec![] } else { parts(case).0.to_vec() }
}

fn same_colors(a: &[u8], b: &[u8]) -> bool {
    a.chunks_exact(4).map(|c| &c[..3]).eq(b.chunks_exact(4).map(|c| &c[..3]))
}

/// Which of the two colours of a pixel is colour zero: of the opaque one, of its own.
fn zeros(case: &ToMode) -> impl Iterator<Item = [bool; 2]> {
    let (tables, zero) = (case.tables.accepted(), model::rgb(case.zero));
    let hit = |opaque: &[u8]| {
        let lent = model::Lent { opaque, ..case.lent(&tables) };
        (0..case.pixels.len() / 4).map(|i| model::rgb(lent.reduced(i).unwrap()) == zero).collect::<Vec<bool>>()
    };
    hit(&case.opaque).into_iter().zip(hit(&case.pixels)).map(|(opaque, own)| [opaque, own])
}

#[test]
fn random_cases_have_everything() {
    for call in PICTURES {
        let cases = numbered((0..3000).map(|number| generate::case(call, 1, number, Style::DRIVER)));
        let (shown, wrong) = (all_shown(&cases), pairings(&cases, 1));
        assert_eq!(shown.len(), 8, "{}: {shown:?}", call.name());
        assert_eq!(pairings(&cases, 0), BTreeSet::from(PAIRINGS));
        let near = [[3, 1], [3, 2], [4, 1], [4, 2], [5, 2], [6, 0]];
        assert!(near.iter().all(|pairing| wrong.contains(pairing)), "{}: {wrong:?}", call.name());
        for some in [&[3, 4][..], &[256, 257, 258], &[u32::MAX, 0x8000_0000, 0x8000_0001]] {
            assert!(wrong.iter().any(|[_, reducing]| some.contains(reducing)), "{}: {some:?}", call.name());
        }
    }
}

#[test]
fn random_cases_have_colour_zero_of_one_pixel_alone() {
    let cases = opaque_cases(Call::DitherToMode).filter_map(|case| match case {
        Case::DitherToMode(case) if case.has_zero != 0 => Some(case),
        _ => None,
    });
    let met: BTreeSet<[bool; 2]> = cases.flat_map(|case| zeros(&case).collect::<Vec<_>>()).collect();
    assert_eq!(met.len(), 4, "{met:?}");
}

#[test]
fn recorded_cases_have_every_pairing_and_no_other_reduction() {
    for call in PICTURES {
        let cases = numbered(cases_of(call, 1).into_iter().chain(greys::of(call)));
        assert!(cases.iter().all(|(case, _)| REDUCTIONS.contains(&case.pairing().unwrap()[1])));
        assert_eq!(pairings(&cases, 0), BTreeSet::from(PAIRINGS));
        let all = (2..=7).flat_map(|shift| REDUCTIONS.map(|reducing| [shift, reducing]));
        let wrong = pairings(&cases, 1);
        assert!(all.filter(|pairing| !PAIRINGS.contains(pairing)).all(|pairing| wrong.contains(&pairing)));
        let shown = all_shown(&cases);
        assert_eq!(shown.len(), 8, "{}: {shown:?}", call.name());
    }
}

#[test]
fn the_recorded_list_has_the_calls_order() {
    let after = |case: &Case, shift: usize, pixels: usize| {
        let written = line(case, &expected(case));
        let tokens: Vec<&str> = written.split(' ').map(|token| token.trim()).collect();
        assert_eq!(tokens[shift..shift + 2], ["00000006", "00000002"]);
        assert_eq!(tokens[pixels + 1], "c86432ff");
        tokens.len()
    };
    let [collect, quantize, to_mode] = PICTURES.map(|call| small_with(call, 6, OPAQUE_COLOR, 4));
    assert_eq!(after(&collect, 1, 5), 1 + 8 + 4);
    assert_eq!(after(&quantize, 1, 7), 1 + 11 + 4);
    assert_eq!(after(&to_mode, 1, 13), 1 + 18 + 7);
    let by_alpha = small_with(Call::QuantizePixels, 3, BY_ALPHA, 0);
    assert_eq!(line(&by_alpha, &expected(&by_alpha)).split(' ').nth(8), Some("-"));
    assert!(tables_line(by_alpha.tables().unwrap()).starts_with("k "));
}

#[test]
fn the_recorded_list_has_room() {
    assert!(list(&Call::ALL, 1, "").len() < MOST_BYTES);
}
