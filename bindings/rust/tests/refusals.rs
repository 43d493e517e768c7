//! Every number of the table, from each call that can give it; what a refusal
//! leaves; slices of no length; and the first number where several apply.

mod common;

use badge_dither::*;
use common::*;

const ANY: NormalizedColor = NormalizedColor([1, 2, 3, 255]);
const NO_LIST: Candidates = Candidates { reduced: &[], normalized: &[], oklab: &[] };

/// The answers of the three lookups to a list, each as its number.
fn lookups(list: Candidates) -> [Option<u32>; 3] {
    [
        nearest(list, ANY).err().map(Refusal::number),
        nearest_two(list, ANY, 3).err().map(Refusal::number),
        ordered_bracket(list, ANY, 3).err().map(Refusal::number),
    ]
}

#[test]
fn single_values() {
    assert_eq!(ordered_threshold(11, 0, 0), Err(Refusal::KindOrShift));
    for shift in [0, 1, 2, 7, 8, u32::MAX] {
        assert_eq!(bracket_width(shift, 8), Err(Refusal::KindOrShift), "shift {shift}");
    }
    for kind in [kind::OFF, kind::ATKINSON, kind::FLOYD_STEINBERG] {
        assert_eq!(ordered_threshold(kind, 0, 0), Err(Refusal::NoMatrix));
    }
}

#[test]
fn components_of_a_distance() {
    let zero = Oklab::default();
    for wrong in [f32::NAN, f32::INFINITY, f32::NEG_INFINITY, 2.0000002, -2.0000002, f32::MAX] {
        for o in [Oklab { l: wrong, ..zero }, Oklab { a: wrong, ..zero }, Oklab { b: wrong, ..zero }] {
            assert_eq!(oklab_sqdist(o, zero), Err(Refusal::Component));
            assert_eq!(oklab_sqdist(zero, o), Err(Refusal::Component));
        }
    }
    let ends = Oklab { l: 2.0, a: -2.0, b: -0.0 };
    assert!(oklab_sqdist(ends, zero).is_ok());
}

#[test]
fn lists() {
    assert_eq!(lookups(NO_LIST), [Some(4); 3]);
    let one = Candidates { reduced: &BLACK, normalized: &BLACK, oklab: &[0.0; 3] };
    assert_eq!(lookups(one), [None; 3]);
    assert_eq!(lookups(Candidates { reduced: &[], ..one }), [Some(3); 3]);
    assert_eq!(lookups(Candidates { normalized: &[], ..one }), [Some(3); 3]);
    assert_eq!(lookups(Candidates { oklab: &[], ..one }), [Some(3); 3]);
    assert_eq!(lookups(Candidates { oklab: &[0.0; 4], ..one }), [Some(3); 3]);
    assert_eq!(lookups(Candidates { oklab: &[0.0, f32::NAN, 0.0], ..one }), [Some(6); 3]);
}

#[test]
fn the_longest_list() {
    let (colors, oklab) = (vec![0; 4 * 65_537], vec![0.0; 3 * 65_537]);
    let list =
        |n: usize| Candidates { reduced: &colors[..4 * n], normalized: &colors[..4 * n], oklab: &oklab[..3 * n] };
    assert_eq!(lookups(list(65_536)), [None; 3]);
    assert_eq!(lookups(list(65_537)), [Some(4); 3]);
}

#[test]
fn picks() {
    let black = ReducedColor(BLACK);
    let same = Bracket { dark: black, light: black, ratio: 0.5, dark_position: 0, light_position: 0 };
    assert_eq!(pick(same, 11, 0, 0), Err(Refusal::KindOrShift));
    for kind in [kind::OFF, kind::ATKINSON, kind::FLOYD_STEINBERG] {
        assert_eq!(pick(same, kind, 0, 0), Err(Refusal::NoMatrix));
    }
}

/// What `quantize_pixels` says to one black pixel after a change to what is
/// lent, having made sure that a refusal leaves all as it was.
fn quantized(shift: u32, kind: u32, size: [u32; 2], palette: &[u8], change: fn(&mut Lent)) -> Option<u32> {
    let t = five_bits();
    let mut lent = Lent::new(1, kind.min(10), 1);
    change(&mut lent);
    let was = lent.clone();
    let picture = Picture { width: size[0], height: size[1], pixels: &BLACK };
    let refusal = lent.quantize(shift, kind, picture, t.tables(), palette).err();
    assert!(refusal.is_none() || lent == was);
    refusal.map(Refusal::number)
}

#[test]
fn quantizing() {
    assert_eq!(quantized(3, 10, [1, 1], &BLACK, |_| ()), None);
    for (shift, kind) in [(2, 0), (6, 0), (3, 11), (u32::MAX, u32::MAX)] {
        assert_eq!(quantized(shift, kind, [1, 1], &BLACK, |_| ()), Some(1));
    }
    for size in [[4097, 0], [0, 4097], [4096, 257], [u32::MAX, u32::MAX], [65_536, 65_536]] {
        assert_eq!(quantized(3, 0, size, &[], |l| l.out.clear()), Some(2));
    }
    assert_eq!(quantized(3, 0, [1, 2], &BLACK, |_| ()), Some(3));
    assert_eq!(quantized(3, 0, [1, 1], &[0; 5], |_| ()), Some(3));
    assert_eq!(quantized(3, 0, [1, 1], &[], |l| l.indices.clear()), Some(3));
    assert_eq!(quantized(3, 0, [1, 1], &BLACK, |l| l.out.push(0)), Some(3));
    assert_eq!(quantized(3, 0, [1, 1], &BLACK, |l| l.cells.push(0)), Some(3));
    assert_eq!(quantized(3, 9, [1, 1], &BLACK, |l| l.cells.clear()), Some(3));
    assert_eq!(quantized(3, 9, [1, 1], &[], |_| ()), Some(4));
    assert_eq!(quantized(3, 9, [1, 1], &BLACK.repeat(257), |_| ()), Some(4));
}

#[test]
fn tables_of_another_length() {
    let t = five_bits();
    let (short, long, none) = (&t.scale[..255], [0; 257], &[][..]);
    for wrong in [short, &long, none] {
        for tables in [Tables { reduction: wrong, ..t.tables() }, Tables { scale: wrong, ..t.tables() }] {
            let mut lent = Lent::new(1, 0, 1);
            assert_eq!(lent.quantize(3, 0, row(&BLACK), tables, &BLACK), Err(Refusal::Length));
            assert_eq!(lent.dither(settings(0), row(&BLACK), tables), Err(Refusal::Length));
            assert_eq!(lent.candidates(3, row(&BLACK), tables), Err(Refusal::Length));
            assert_eq!(lent, Lent::new(1, 0, 1));
        }
    }
}

/// What `dither_to_mode` says to one black pixel, having made sure that a
/// refusal leaves all as it was.
fn dithered(settings: Settings, change: fn(&mut Lent)) -> Option<u32> {
    let t = five_bits();
    let mut lent = Lent::new(1, settings.kind.min(10), 1);
    change(&mut lent);
    let was = lent.clone();
    let refusal = lent.dither(settings, row(&BLACK), t.tables()).err();
    assert!(refusal.is_none() || lent == was);
    refusal.map(Refusal::number)
}

#[test]
fn dithering_to_a_mode() {
    let ok = settings(kind::FLOYD_STEINBERG);
    assert_eq!(dithered(ok, |_| ()), None);
    assert_eq!(dithered(Settings { shift: 6, limit: 257, ..ok }, |_| ()), Some(1));
    assert_eq!(dithered(Settings { kind: 11, ..ok }, |l| l.out.clear()), Some(1));
    assert_eq!(dithered(Settings { origin: [u32::MAX, 0], tile: [0, 0], ..ok }, |_| ()), Some(2));
    assert_eq!(dithered(Settings { origin: [0, u32::MAX], ..ok }, |l| l.cells.clear()), Some(2));
    assert_eq!(dithered(Settings { origin: [u32::MAX - 1; 2], ..ok }, |_| ()), None);
    assert_eq!(dithered(Settings { tile: [0, 0], ..ok }, |l| l.cells.clear()), Some(3));
    assert_eq!(dithered(ok, |l| l.places.truncate(3)), Some(3));
    assert_eq!(dithered(ok, |l| l.oklab.clear()), Some(3));
    for tile in [[0, 1], [1, 0], [4097, 1], [1, u32::MAX]] {
        assert_eq!(dithered(Settings { tile, ..ok }, |_| ()), Some(5));
    }
    assert_eq!(dithered(Settings { limit: 257, ..ok }, |_| ()), Some(5));
}

#[test]
fn retired_kinds() {
    let (t, dark, light) = (five_bits(), ReducedColor(BLACK), ReducedColor(WHITE));
    let two = Bracket { dark, light, ratio: 0.5, dark_position: 0, light_position: 1 };
    for kind in RETIRED {
        assert_eq!(ordered_threshold(kind, 0, 0), Err(Refusal::RetiredKind));
        assert_eq!(pick(two, kind, 0, 0), Err(Refusal::RetiredKind));
        assert_eq!(pick(Bracket { light: dark, ..two }, kind, 0, 0), Err(Refusal::RetiredKind));
        assert_eq!(quantized(3, kind, [1, 1], &BLACK, |_| ()), Some(15));
        assert_eq!(dithered(settings(kind), |_| ()), Some(15));
        let (mut lent, nothing) = (Lent::new(0, kind, 0), row(&[]));
        assert_eq!(lent.quantize(3, kind, nothing, t.tables(), &BLACK), Err(Refusal::RetiredKind));
        assert_eq!(lent.dither(settings(kind), nothing, t.tables()), Err(Refusal::RetiredKind));
    }
    assert_eq!(Refusal::RetiredKind.to_string(), "15: the kind is retired");
}

#[test]
fn a_retired_kind_comes_directly_after_1() {
    for kind in RETIRED {
        for shift in [0, 2, 6, u32::MAX] {
            assert_eq!(quantized(shift, kind, [4097, 1], &[], |l| l.out.clear()), Some(1));
            assert_eq!(dithered(Settings { shift, tile: [0, 0], ..settings(kind) }, |l| l.out.clear()), Some(1));
        }
        assert_eq!(quantized(5, kind, [4097, 1], &[], |l| l.out.clear()), Some(15), "and 2, 3, 4");
        assert_eq!(quantized(4, kind, [1, 2], &BLACK, |_| ()), Some(15), "and 3");
        assert_eq!(quantized(3, kind, [1, 1], &[], |_| ()), Some(15), "and 4");

        let ok = settings(kind);
        let far = Settings { origin: [u32::MAX; 2], tile: [0, 0], limit: 257, ..ok };
        assert_eq!(dithered(far, |l| l.oklab.clear()), Some(15), "and 2, 3, 5");
        assert_eq!(dithered(ok, |l| l.cells.push(0)), Some(15), "and 3");
        assert_eq!(dithered(Settings { tile: [0, 8], ..ok }, |_| ()), Some(15), "and 5");
        assert_eq!(dithered(ok, |l| (l.places, l.oklab) = Default::default()), Some(15), "and 7");
        assert_eq!(dithered(Settings { limit: 0, ..ok }, |_| ()), Some(15), "and 8");
    }
}

#[test]
fn too_many_candidates() {
    let (t, pixels) = (five_bits(), [grey(0), grey(64), grey(255)].concat());
    let was = Lent::new(3, kind::ATKINSON, 2);
    let left = Lent { places: vec![0; 8], ..was.clone() };

    let mut lent = was.clone();
    assert_eq!(lent.candidates(3, row(&pixels), t.tables()), Err(Refusal::TooManyCandidates));
    assert_eq!(lent, left);

    let mut lent = was.clone();
    let refusal = lent.dither(settings(kind::ATKINSON), row(&pixels), t.tables());
    assert_eq!(refusal, Err(Refusal::TooManyCandidates));
    assert_eq!(lent, left);
    assert_eq!(refusal.unwrap_err().to_string(), "7: more candidates than places");
}

#[test]
fn no_places() {
    let t = five_bits();
    let mut lent = Lent::new(1, 0, 0);
    assert_eq!(lent.dither(settings(0), row(&BLACK), t.tables()), Err(Refusal::TooManyCandidates));
    assert_eq!(lent, Lent::new(1, 0, 0));
    assert_eq!(lent.dither(settings(0), row(&CLEAR), t.tables()), Ok(0));
}

#[test]
fn too_many_places() {
    let t = five_bits();
    for (places, answer) in [(65_536, Ok(1)), (65_537, Err(Refusal::Length))] {
        let mut lent = Lent::new(1, 0, places);
        assert_eq!(lent.candidates(3, row(&BLACK), t.tables()), answer);
    }
}

#[test]
fn a_tile_over_its_limit() {
    let (t, pixels) = (five_bits(), [grey(0), grey(0), grey(64), grey(255)].concat());
    let settings = Settings { tile: [2, 1], limit: 1, ..settings(kind::FLOYD_STEINBERG) };
    let mut lent = Lent::new(4, settings.kind, 4);
    let refusal = lent.dither(settings, row(&pixels), t.tables()).unwrap_err();
    assert_eq!(refusal, Refusal::TileOver { tile: 1, count: 3 });
    assert_eq!((refusal.number(), refusal.to_string().as_str()), (8, "8: tile 1 is over its limit"));
    assert_eq!((lent.out, lent.cells), (vec![0; 16], vec![0; 12]));

    let mut listed = Lent::new(4, 0, 4);
    assert_eq!(listed.candidates(3, row(&pixels), t.tables()), Ok(3));
    assert_eq!((lent.places, lent.oklab), (listed.places, listed.oklab));
}
