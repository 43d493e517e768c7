//! The three reductions: which shifts go with which, the opaque pixels that grey
//! and opaque colour are lent, the luma, and what stays the picture's own.

mod common;

use badge_dither::*;
use common::*;

/// How a slice of opaque pixels is lent.
type Way = fn(&[u8]) -> Reducing<'_>;

const GREY: Way = |opaque| Reducing::Grey(opaque);
const OPAQUE: Way = |opaque| Reducing::OpaqueColor(opaque);
/// Each with a shift that goes with it.
const LENT: [(u32, Way); 3] = [(5, GREY), (6, GREY), (6, OPAQUE)];

/// Of two bits a channel.
const BRIGHT: [u8; 4] = [3, 3, 3, 255];

/// Every byte as it is.
fn whole() -> ModeTables {
    let table = std::array::from_fn(|i| i as u8);
    ModeTables { reduction: table, scale: table }
}

/// What each of the three calls says to one pixel by a kind: the numbers of
/// their refusals, having made sure that these leave all as it was.
fn answers(shift: u32, reducing: Reducing, kind: u32, pixel: &[u8]) -> [Option<u32>; 3] {
    let t = two_bits();
    let mut lent = [(); 3].map(|()| Lent::new(1, kind.min(10), 1));
    let was = lent[0].clone();
    let said = [
        candidate_colors_in(shift, reducing, row(pixel), t.tables(), lent[0].rooms()).err(),
        lent[1].quantize_by((shift, reducing), kind, row(pixel), t.tables(), &BLACK).err(),
        lent[2].dither(Settings { shift, reducing, ..settings(kind) }, row(pixel), t.tables()).err(),
    ];
    assert!(said.iter().zip(&lent).all(|(refusal, lent)| refusal.is_none() || *lent == was));
    said.map(|refusal| refusal.map(Refusal::number))
}

#[test]
fn pairs_of_shift_and_reduction() {
    for shift in (0..10).chain([u32::MAX - 2, u32::MAX]) {
        let ways = [
            (Reducing::ByAlpha, (3..=5).contains(&shift)),
            (Reducing::Grey(&BLACK), (5..=6).contains(&shift)),
            (Reducing::OpaqueColor(&BLACK), shift == 6),
        ];
        for (reducing, right) in ways {
            let said = answers(shift, reducing, kind::ATKINSON, &BLACK);
            assert_eq!(said, [(!right).then_some(1); 3], "shift {shift}, {reducing:?}");
        }
    }
    let said = "1: no such kind or shift, or a shift that does not go with the reduction";
    assert_eq!(Refusal::KindOrShift.to_string(), said);
}

#[test]
fn a_wrong_pair_comes_first() {
    for kind in RETIRED {
        // The opaque pixels are of a wrong length, too.
        assert_eq!(answers(4, Reducing::Grey(&[]), kind, &BLACK), [Some(1); 3]);
        assert_eq!(answers(5, Reducing::OpaqueColor(&[]), kind, &BLACK), [Some(1); 3]);
        assert_eq!(answers(6, Reducing::ByAlpha, kind, &BLACK), [Some(1); 3]);
        assert_eq!(answers(6, Reducing::OpaqueColor(&[]), kind, &BLACK), [Some(3), Some(15), Some(15)]);
    }
    assert_eq!(answers(5, Reducing::OpaqueColor(&[]), 11, &BLACK), [Some(1); 3]);
}

#[test]
fn opaque_pixels_of_another_length() {
    let bytes = [0; 16];
    for (shift, way) in LENT {
        for length in 0..=16 {
            let answer = (length != 4).then_some(3);
            assert_eq!(answers(shift, way(&bytes[..length]), 0, &BLACK), [answer; 3], "shift {shift}, {length}");
        }
        // Of two pixels they are eight bytes, and it is the size that says two.
        let (t, mut lent) = (two_bits(), Lent::new(2, 0, 1));
        let mut said = |length, picture| {
            candidate_colors_in(shift, way(&bytes[..length]), picture, t.tables(), lent.rooms()).err()
        };
        assert_eq!([4, 8].map(|length| said(length, row(&bytes[..8]))), [Some(Refusal::Length), None]);
        assert_eq!(said(8, Picture { width: 1, ..row(&bytes[..8]) }), Some(Refusal::Length));
    }
}

#[test]
fn a_wrong_length_comes_before_what_is_asked_later() {
    let t = two_bits();
    for (shift, way) in LENT {
        let (reducing, picture) = (way(&[0; 5]), row(&BLACK));
        let mut lent = Lent::new(1, 0, 0);
        let large = Picture { width: 4097, ..picture };
        let ok = Settings { shift, reducing, ..settings(0) };
        assert_eq!(lent.quantize_by((shift, reducing), 0, large, t.tables(), &[]), Err(Refusal::Size));
        assert_eq!(lent.quantize_by((shift, reducing), 0, picture, t.tables(), &[]), Err(Refusal::Length), "and 4");
        assert_eq!(lent.dither(ok, large, t.tables()), Err(Refusal::Size));
        let tiles = Settings { tile: [0, 0], ..ok };
        assert_eq!(lent.dither(tiles, picture, t.tables()), Err(Refusal::Length), "and 5");
        assert_eq!(lent.dither(ok, picture, t.tables()), Err(Refusal::Length), "and 7");
        let candidates = candidate_colors_in(shift, reducing, picture, t.tables(), lent.rooms());
        assert_eq!(candidates, Err(Refusal::Length), "and 7");
        assert_eq!(lent, Lent::new(1, 0, 0));
    }
}

#[test]
fn pictures_without_pixels() {
    let (t, picture) = (two_bits(), Picture { width: 4096, height: 0, pixels: &[] });
    for (shift, way) in LENT {
        let mut lent = Lent::new(0, 10, 0);
        assert_eq!(lent.quantize_by((shift, way(&[])), 10, picture, t.tables(), &BLACK), Ok(()));
        let settings = Settings { shift, reducing: way(&[]), ..settings(10) };
        assert_eq!(lent.dither(settings, picture, t.tables()), Ok(0));
        assert_eq!(
            lent.dither(Settings { reducing: way(&[0; 4]), ..settings }, picture, t.tables()),
            Err(Refusal::Length)
        );
    }
}

/// The candidates of a picture whose opaque pixels these are.
fn candidates(shift: u32, way: Way, t: &ModeTables, opaque: &[u8]) -> Vec<[u8; 4]> {
    let pixels: Vec<u8> = opaque.iter().map(|byte| byte ^ 0x55).collect();
    let mut lent = Lent::new(0, 0, opaque.len() / 4);
    let count = candidate_colors_in(shift, way(opaque), row(&pixels), t.tables(), lent.rooms()).unwrap();
    lent.places.chunks_exact(4).take(count).map(|place| place.try_into().unwrap()).collect()
}

/// The original's steps.
fn luma_u8([r, g, b]: [u8; 3]) -> u8 {
    let [r, g, b] = [r, g, b].map(|v| f32::from(v) / f32::from(u8::MAX));
    let luma = r * 0.2126 + g * 0.7152 + b * 0.0722;
    (luma * f32::from(u8::MAX)).clamp(0.0, 255.0) as u8
}

#[test]
fn lumas_by_hand() {
    // What is after the point is cut off. Of the last four the luma is a whole
    // number, 32, 128, 53 and 237, and in floats it comes to a little less.
    for (color, luma) in [
        ([0, 0, 0], 0),
        ([255, 255, 255], 255),
        ([255, 0, 0], 54),
        ([0, 255, 0], 182),
        ([0, 0, 255], 18),
        ([255, 128, 7], 146),
        ([1, 29, 153], 31),
        ([97, 125, 249], 127),
        ([53, 53, 53], 52),
        ([237, 237, 237], 236),
    ] {
        let opaque = [&color[..], &[0]].concat();
        for shift in [5, 6] {
            assert_eq!(candidates(shift, GREY, &whole(), &opaque), [grey(luma)], "{color:?}");
        }
    }
    let boundary = [97, 125, 249, 0];
    assert_eq!(candidates(6, GREY, &two_bits(), &boundary), [[1, 1, 1, 255]]);
    assert_eq!(candidates(6, OPAQUE, &two_bits(), &boundary), [[1, 1, 3, 255]]);
}

#[test]
fn lumas_are_the_originals() {
    let t = whole();
    for r in 0..=255u8 {
        for g in (0..=255u8).step_by(3) {
            let color = [r, g, r.wrapping_mul(89).wrapping_add(g.wrapping_mul(151))];
            let opaque = [&color[..], &[g]].concat();
            assert_eq!(candidates(5, GREY, &t, &opaque), [grey(luma_u8(color))], "{color:?}");
        }
    }
}

#[test]
fn reduced_through_the_table() {
    // A table that nobody would guess, and that keeps no order.
    let mut t = whole();
    t.reduction = std::array::from_fn(|i| (i * 77 + 13) as u8);
    let (through, opaque) = (|v: u8| v.wrapping_mul(77).wrapping_add(13), [255, 128, 7, 9]);
    assert_eq!(candidates(6, GREY, &t, &opaque), [grey(through(146))]);
    assert_eq!(candidates(6, OPAQUE, &t, &opaque), [[through(255), through(128), through(7), 255]]);
}

/// What both passes leave of a picture of 8x8, by kind, in two bits a channel.
fn drawn(shift: u32, reducing: Reducing, kind: u32, pixels: &[u8]) -> [Lent; 2] {
    let (t, palette) = (two_bits(), [BLACK, [1, 2, 1, 255], BRIGHT].concat());
    let picture = Picture { width: 8, height: 8, pixels };
    let mut both = [Lent::new(64, kind, 0), Lent::new(64, kind, 64)];
    assert_eq!(both[0].quantize_by((shift, reducing), kind, picture, t.tables(), &palette), Ok(()));
    assert!(both[1].dither(Settings { shift, reducing, ..settings(kind) }, picture, t.tables()).is_ok());
    both
}

/// Colours and alphas of all sorts.
fn sorts(step: usize) -> Vec<u8> {
    (0..256).map(|i| ((i * step) ^ (i >> 3)) as u8).collect()
}

#[test]
fn no_pixel_is_transparent() {
    let pixels: Vec<u8> = sorts(37).chunks(4).flat_map(|pixel| [pixel[0], pixel[1], pixel[2], 0]).collect();
    for (shift, way) in LENT {
        for kind in DRAWN {
            for lent in drawn(shift, way(&opaque_threshold(&pixels)), kind, &pixels) {
                assert!(lent.out.chunks(4).all(|pixel| pixel[3] == 255), "shift {shift}, kind {kind}");
                assert!(lent.cells.iter().all(|cell| (-4080..=4080).contains(cell)));
                assert_eq!(lent.cells.iter().any(|&cell| cell != 0), kind::is_diffusion(kind));
            }
        }
    }
}

#[test]
fn alphas_play_no_part() {
    let (pixels, opaque) = (sorts(37), sorts(91));
    let alphas = |bytes: &[u8], alpha: u8| -> Vec<u8> {
        bytes.chunks(4).flat_map(|pixel| [pixel[0], pixel[1], pixel[2], alpha]).collect()
    };
    for (shift, way) in LENT {
        for kind in DRAWN {
            let as_it_is = drawn(shift, way(&opaque), kind, &pixels);
            for alpha in [0, 127, 128, 255] {
                assert_eq!(drawn(shift, way(&opaque), kind, &alphas(&pixels, alpha)), as_it_is, "the picture's");
                assert_eq!(drawn(shift, way(&alphas(&opaque, alpha)), kind, &pixels), as_it_is, "the opaque pixels'");
            }
        }
    }
}

#[test]
fn alpha_goes_through_the_scale_table() {
    let mut t = two_bits();
    t.scale[255] = 7;
    for (shift, way) in LENT {
        let mut lent = Lent::new(1, 0, 1);
        assert_eq!(lent.quantize_by((shift, way(&CLEAR)), 0, row(&CLEAR), t.tables(), &BRIGHT), Ok(()));
        assert_eq!(lent.out, [255, 255, 255, 7]);
        let settings = Settings { shift, reducing: way(&[0; 4]), ..settings(0) };
        assert_eq!(lent.dither(settings, row(&CLEAR), t.tables()), Ok(1));
        assert_eq!(lent.out, [0, 0, 0, 7]);
    }
}

#[test]
fn the_colour_dithered_is_the_pictures_own() {
    // The first pixel is light and transparent, so that its opaque pixel is black.
    let (t, pixels) = (two_bits(), [[250, 250, 250, 0], [255; 4]].concat());
    let opaque = opaque_threshold(&pixels);
    assert_eq!(opaque, [[0; 4], [255; 4]].concat());
    for (shift, way) in LENT {
        let settings = Settings { shift, reducing: way(&opaque), ..settings(kind::FLOYD_STEINBERG) };
        let mut lent = Lent::new(2, settings.kind, 2);
        assert_eq!(lent.dither(settings, row(&pixels), t.tables()), Ok(2));
        assert_eq!(lent.places, [BLACK, BRIGHT].concat(), "shift {shift}");
        assert_eq!(lent.out, [255; 8], "shift {shift}");
        assert_eq!(lent.cells, [0, 0, 0, -35, -35, -35], "7 sixteenths of 250 less 255");
    }
}

#[test]
fn colour_zero_is_asked_of_the_opaque_pixel() {
    let (t, pixels) = (two_bits(), [[250, 250, 250, 0], [0, 0, 0, 255], [255; 4]].concat());
    let opaque = opaque_threshold(&pixels);
    for (shift, way) in LENT {
        let settings = |opaque, zero| Settings {
            shift,
            reducing: way(opaque),
            color_zero: Some(ReducedColor(zero)),
            ..settings(kind::FLOYD_STEINBERG)
        };
        let mut lent = Lent::new(3, kind::FLOYD_STEINBERG, 2);
        assert_eq!(lent.dither(settings(&opaque, [0; 4]), row(&pixels), t.tables()), Ok(2));
        assert_eq!((&lent.out[..4], &lent.cells[..]), (&[0, 0, 0, 255][..], &[0; 9][..]), "light, and black is kept");
        // With the picture's own pixels for the opaque ones it is light.
        assert_eq!(lent.dither(settings(&pixels, [3; 4]), row(&pixels), t.tables()), Ok(2));
        assert_eq!((&lent.out[..4], &lent.cells[..]), (&[255; 4][..], &[0; 9][..]));
    }
}

#[test]
fn a_pixel_without_alpha_counts_in_its_tile() {
    let t = two_bits();
    for (shift, way) in LENT {
        let settings = |limit| Settings { shift, reducing: way(&[0; 4]), limit, ..settings(0) };
        let mut lent = Lent::new(1, 0, 1);
        let over = Refusal::TileOver { tile: 0, count: 1 };
        assert_eq!(lent.dither(settings(0), row(&CLEAR), t.tables()), Err(over));
        assert_eq!(lent.out, [0; 4]);
        assert_eq!(lent.dither(settings(1), row(&CLEAR), t.tables()), Ok(1));
    }
}

#[test]
fn an_opaque_picture_by_opaque_colour_is_as_by_alpha() {
    let (t, pixels) = (two_bits(), sorts(37).chunks(4).flat_map(|p| [p[0], p[1], p[2], 255]).collect::<Vec<u8>>());
    let picture = Picture { width: 8, height: 8, pixels: &pixels };
    // An ordered kind's bracket goes by the shift.
    for kind in [kind::OFF, kind::ATKINSON, kind::FLOYD_STEINBERG] {
        let mut lent = Lent::new(64, kind, 64);
        assert!(lent.dither(Settings { shift: 5, ..settings(kind) }, picture, t.tables()).is_ok());
        // The two slices are one.
        assert_eq!(drawn(6, Reducing::OpaqueColor(&pixels), kind, &pixels)[1], lent, "kind {kind}");
    }
}

#[test]
fn opaque_pixels_may_be_anything() {
    let pixels = sorts(37);
    for (shift, way) in LENT {
        for kind in DRAWN {
            let [one, other] = [vec![200; 256], pixels.clone()].map(|opaque| drawn(shift, way(&opaque), kind, &pixels));
            // The palette's pass asks them only whether a pixel is transparent, and none is.
            assert_eq!(one[0], other[0], "shift {shift}, kind {kind}");
            // The mode pass has its candidates of them: here one colour, and several.
            assert_eq!(one[1].places[..8], [BRIGHT, [RUBBISH; 4]].concat());
            assert_eq!((&one[1].out[..], other[1].places[7]), (&[255; 256][..], 255), "shift {shift}, kind {kind}");
        }
    }
}

#[test]
fn thresholds() {
    for (alpha, opaque) in [(0, [0; 4]), (127, [0; 4]), (128, [9, 8, 7, 128]), (255, [9, 8, 7, 255])] {
        let pixels = [9, 8, 7, alpha];
        assert_eq!(opaque_threshold(&pixels), opaque);
        let mut lent = [RUBBISH; 4];
        assert_eq!(opaque_threshold_into(&pixels, &mut lent), Ok(()));
        assert_eq!(lent, opaque);
    }
    assert_eq!(opaque_threshold(&[9, 8, 7, 0, 6, 5, 4]), [0, 0, 0, 0, 6, 5, 4]);
    assert_eq!(opaque_threshold(&[]), [0; 0]);
    for length in [0, 3, 5, 8] {
        let mut lent = vec![RUBBISH; length];
        assert_eq!(opaque_threshold_into(&[9; 4], &mut lent), Err(Refusal::Length));
        assert_eq!(lent, vec![RUBBISH; length]);
    }
}
