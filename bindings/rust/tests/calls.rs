//! An accepted call of each kind, the rules that are easily got wrong, and
//! pictures without pixels.

mod common;

use badge_dither::*;
use common::*;

const MID: NormalizedColor = NormalizedColor([128, 128, 128, 255]);

/// A list of normalised grey levels as candidates: reduced by five bits, with
/// their Oklab colours.
struct Greys {
    reduced: Vec<u8>,
    normalized: Vec<u8>,
    oklab: Vec<f32>,
}

impl Greys {
    fn new(levels: &[u8]) -> Greys {
        let oklab = levels.iter().flat_map(|&v| {
            let o = to_oklab(NormalizedColor(grey(v)));
            [o.l, o.a, o.b]
        });
        Greys {
            reduced: levels.iter().flat_map(|&v| grey(v >> 3)).collect(),
            normalized: levels.iter().flat_map(|&v| grey(v)).collect(),
            oklab: oklab.collect(),
        }
    }

    fn list(&self) -> Candidates<'_> {
        Candidates { reduced: &self.reduced, normalized: &self.normalized, oklab: &self.oklab }
    }
}

#[test]
fn distance_counts_a_and_b_more() {
    let (p, q) = (Oklab { l: 0.5, a: 0.0, b: 0.0 }, Oklab { l: 0.0, a: 0.0, b: 0.0 });
    assert_eq!(oklab_sqdist(p, q), Ok(0.25));
    let far = oklab_sqdist(Oklab { l: 0.0, a: 0.0, b: 1.0 }, q).unwrap();
    assert!(far > 1.0);
}

#[test]
fn nearest_is_the_first_of_equals() {
    let greys = Greys::new(&[0, 130, 130, 255]);
    assert_eq!(nearest(greys.list(), MID), Ok(1));
}

#[test]
fn two_of_a_list() {
    assert_eq!(nearest_two(Greys::new(&[128]).list(), MID, 4), Ok((0, None)));
    let greys = Greys::new(&[0, 255]);
    let (first, second) = nearest_two(greys.list(), MID, 4).unwrap();
    assert_eq!([Some(first), second].map(|p| p.is_some_and(|p| p < 2)), [true, true]);
    assert_ne!(Some(first), second);
}

#[test]
fn bracket_of_a_list_and_its_pick() {
    // The darker one comes first, wherever it stands in the list.
    for (levels, positions) in [([255, 0], (1, 0)), ([0, 255], (0, 1))] {
        let bracket = ordered_bracket(Greys::new(&levels).list(), MID, 4).unwrap();
        assert_eq!((bracket.dark, bracket.light), (ReducedColor(BLACK), ReducedColor(WHITE)));
        assert_eq!((bracket.dark_position, bracket.light_position), positions);
        assert!(bracket.ratio > 0.25 && bracket.ratio < 0.75);
        assert_eq!(pick(bracket, kind::CHECKER, 0, 0).unwrap(), pick(bracket, kind::CHECKER, 1, 1).unwrap());
        let picked = [0, 1].map(|x| pick(bracket, kind::CHECKER, x, 0).unwrap());
        let dark = Choice { color: ReducedColor(BLACK), position: positions.0 };
        let light = Choice { color: ReducedColor(WHITE), position: positions.1 };
        assert!(picked == [dark, light] || picked == [light, dark], "{picked:?}");
    }
}

#[test]
fn bracket_of_one_entry() {
    let solid = ordered_bracket(Greys::new(&[255]).list(), MID, 4).unwrap();
    let white = ReducedColor(WHITE);
    assert_eq!(solid, Bracket { dark: white, light: white, ratio: 0.0, dark_position: 0, light_position: 0 });
    assert_eq!(pick(solid, kind::CHECKER, 1, 0), Ok(Choice { color: white, position: 0 }));
}

#[test]
fn bracket_of_an_entry_and_its_twin() {
    let greys = Greys::new(&[255, 130, 0, 130]);
    assert_eq!(nearest_two(greys.list(), MID, 1), Ok((1, Some(3))));
    let twins = ordered_bracket(greys.list(), MID, 1).unwrap();
    let color = ReducedColor(grey(130 >> 3));
    assert_eq!(twins, Bracket { dark: color, light: color, ratio: 0.0, dark_position: 1, light_position: 3 });
    // Of one colour dark's entry is chosen, by any ratio.
    for ratio in [0.0, 0.5, f32::INFINITY] {
        let choice = pick(Bracket { ratio, ..twins }, kind::CHECKER, 0, 0);
        assert_eq!(choice, Ok(Choice { color, position: 1 }), "ratio {ratio}");
    }
}

#[test]
fn positions_are_those_of_the_colours() {
    let levels = [40, 255, 90, 0, 90, 200, 130, 0, 255];
    let (greys, reduced) = (Greys::new(&levels), |k: usize| ReducedColor(grey(levels[k] >> 3)));
    for level in 0..=255 {
        let (color, width) = (NormalizedColor(grey(level)), 1 + u64::from(level) % 9);
        let bracket = ordered_bracket(greys.list(), color, width).unwrap();
        let positions = [bracket.dark_position, bracket.light_position];
        assert_eq!(positions.map(reduced), [bracket.dark, bracket.light], "level {level}");
        let (first, second) = nearest_two(greys.list(), color, width).unwrap();
        assert!(positions.contains(&first) && second.is_some_and(|second| positions.contains(&second)));
        for x in 0..8 {
            let choice = pick(bracket, kind::BAYER_8X8, x, u32::from(level)).unwrap();
            assert!(positions.contains(&choice.position) && choice.color == reduced(choice.position), "level {level}");
        }
    }
}

#[test]
fn any_ratio_is_picked_by() {
    let (black, white) = (ReducedColor(BLACK), ReducedColor(WHITE));
    let of = |ratio| Bracket { dark: black, light: white, ratio, dark_position: 7, light_position: 3 };
    let (dark, light) = (Choice { color: black, position: 7 }, Choice { color: white, position: 3 });
    for (ratio, chosen) in [(f32::NAN, dark), (f32::NEG_INFINITY, dark), (f32::INFINITY, light)] {
        assert_eq!(pick(of(ratio), kind::BAYER_8X8, u32::MAX, u32::MAX), Ok(chosen));
    }
}

#[test]
fn candidates_ascend_and_places_after_them_stay() {
    let t = five_bits();
    let pixels = [grey(255), grey(0), CLEAR, [0, 8, 0, 255], grey(255)].concat();
    let mut lent = Lent::new(5, 0, 4);
    assert_eq!(lent.candidates(3, row(&pixels), t.tables()), Ok(3));
    assert_eq!(lent.places, [BLACK, [0, 1, 0, 255], WHITE, [RUBBISH; 4]].concat());
    let white = to_oklab(NormalizedColor([255; 4]));
    assert_eq!(lent.oklab[6..], [white.l, white.a, white.b, ODD, ODD, ODD]);
}

#[test]
fn every_kind_quantizes() {
    let (t, palette) = (five_bits(), [BLACK, WHITE, WHITE].concat());
    let pixels: Vec<u8> = (0..64).flat_map(|i| if i == 9 { CLEAR } else { grey(4 * i as u8) }).collect();
    let picture = Picture { width: 8, height: 8, pixels: &pixels };
    for kind in DRAWN {
        let mut lent = Lent::new(64, kind, 0);
        assert_eq!(lent.quantize(3, kind, picture, t.tables(), &palette), Ok(()), "kind {kind}");
        assert_eq!((lent.indices[9], &lent.out[36..40]), (0, &[0; 4][..]), "a transparent pixel");
        assert!(lent.indices.iter().all(|&i| i < 2), "the first of equal entries");
        assert!(lent.indices.contains(&1));
        let drawn = |i: usize| [0, 255][usize::from(lent.indices[i])];
        assert!((0..64).all(|i| i == 9 || lent.out[4 * i] == drawn(i)));
    }
}

#[test]
fn every_kind_dithers_to_a_mode() {
    let t = five_bits();
    let pixels: Vec<u8> = (0..64).flat_map(|i| grey(4 * i as u8)).collect();
    let picture = Picture { width: 8, height: 8, pixels: &pixels };
    for kind in DRAWN {
        let mut lent = Lent::new(64, kind, 40);
        assert_eq!(lent.dither(settings(kind), picture, t.tables()), Ok(32), "kind {kind}");
        assert_eq!(lent.places[..8], [[0, 0, 0, 255], [1, 1, 1, 255]].concat());
        assert!(lent.out.chunks(4).all(|p| p[0] == p[1] && p[1] == p[2] && p[3] == 255));
    }
}

#[test]
fn colour_zero_is_kept() {
    let (t, pixels) = (five_bits(), [grey(128), grey(255)].concat());
    let color_zero = Some(ReducedColor([16, 16, 16, 0]));
    let settings = Settings { color_zero, ..settings(kind::FLOYD_STEINBERG) };
    let mut lent = Lent::new(2, settings.kind, 2);
    assert_eq!(lent.dither(settings, row(&pixels), t.tables()), Ok(2));
    assert_eq!(lent.out, [132, 132, 132, 255, 255, 255, 255, 255]);
    assert_eq!(lent.cells, [0; 6], "no error is passed on from colour zero");
}

#[test]
fn pictures_without_pixels() {
    let t = five_bits();
    for (width, height) in [(0, 0), (0, 4096), (4096, 0)] {
        let picture = Picture { width, height, pixels: &[] };
        for kind in DRAWN {
            let mut lent = Lent::new(0, kind, 0);
            assert_eq!(lent.quantize(3, kind, picture, t.tables(), &BLACK), Ok(()));
            assert_eq!(lent.dither(settings(kind), picture, t.tables()), Ok(0));
        }
        assert_eq!(Lent::new(0, 0, 0).candidates(3, picture, t.tables()), Ok(0));
    }
}

#[test]
fn slices_that_are_read_may_be_the_same() {
    let all: [u8; 256] = std::array::from_fn(|i| i as u8);
    let tables = Tables { reduction: &all, scale: &all };
    let picture = Picture { width: 8, height: 8, pixels: &all };
    let mut lent = Lent::new(64, kind::ATKINSON, 0);
    assert_eq!(lent.quantize(4, kind::ATKINSON, picture, tables, &all), Ok(()));
}
