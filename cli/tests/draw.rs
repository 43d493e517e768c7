//! `draw`: the mode pass on files.

mod common;

use badge_dither::kind::{BAYER_8X8, FLOYD_STEINBERG};
use badge_dither::{ReducedColor, Reducing, Settings};
use common::expected::{Console, DRAWN, WITHOUT_ALPHA, modes};
use common::{Folder, noise, painted, rgb, rgba, table};

/// What is asked for where no option but the limit is given. The mode is put in
/// by `Console`.
fn settings(kind: u32) -> Settings<'static> {
    let (shift, reducing) = (0, Reducing::ByAlpha);
    Settings { shift, reducing, kind, origin: [0, 0], tile: [8, 8], limit: 256, color_zero: None }
}

#[test]
fn one_colour_by_hand() {
    let folder = Folder::with(&[("in.pam", rgb(1, &[[255, 128, 7]])), ("luma.pam", rgb(1, &[[97, 125, 249]]))]);
    for (words, [r, g, b]) in [
        ("draw in.pam out.pam", [255, 132, 0]),
        ("draw --mode snes --rounding nearest in.pam out.pam", [255, 132, 8]),
        ("draw --mode gg in.pam out.pam", [255, 136, 0]),
        ("draw --mode md in.pam out.pam", [255, 146, 0]),
        ("draw --mode pce --rounding truncate in.pam out.pam", [255, 146, 0]),
        ("draw --mode sms in.pam out.pam", [255, 170, 0]),
        ("draw --mode sms --rounding nearest luma.pam out.pam", [85, 85, 255]),
        // The luma is 146: 4 in three bits and 2 in two.
        ("draw --mode ngp in.pam out.pam", [146; 3]),
        ("draw --mode ws --rounding nearest in.pam out.pam", [146; 3]),
        ("draw --mode gb in.pam out.pam", [170; 3]),
        // It is 128 in whole numbers, and in the original's floats 127: 3 in three bits and 1 in two.
        ("draw --mode ws luma.pam out.pam", [109; 3]),
        ("draw --mode ngp --rounding nearest luma.pam out.pam", [109; 3]),
        ("draw --mode gb luma.pam out.pam", [85; 3]),
        ("draw --mode gb --rounding nearest luma.pam out.pam", [85; 3]),
    ] {
        folder.badge(words).bytes();
        assert_eq!(folder.read("out.pam"), rgba(1, &[[r, g, b, 255]]), "{words}");
    }
}

#[test]
fn every_mode_and_kind_is_the_librarys() {
    let folder = Folder::with(&[("in.pam", noise(1, 20, 17, true))]);
    for mode in modes() {
        for (kind, rounding) in DRAWN.into_iter().zip(["truncate", "nearest"].into_iter().cycle()) {
            let (name, console) = (mode.name, Console::new(mode, rounding));
            let words = format!("draw --mode {name} --kind {kind} --rounding {rounding} --limit 256 in.pam out.pam");
            folder.badge(&words).bytes();
            let expected = console.drawn(settings(kind), &folder.image("in.pam"));
            assert!(folder.image("out.pam").pixels == expected, "{words}");
        }
    }
}

#[test]
fn pixels_without_alpha() {
    // The first is light, and its alpha alone says that it is not to be seen.
    let folder = Folder::with(&[("in.pam", rgba(3, &[[250, 250, 250, 0], [255; 4], [9, 9, 9, 128]]))]);
    let [clear, white, black] = [[0; 4], [255; 4], [0, 0, 0, 255]];
    for mode in modes() {
        // In a mode that has no transparent pixels it reduces to black, and yet it is dithered as the light one that it is.
        let without = WITHOUT_ALPHA.contains(&mode.name);
        for (options, drawn) in [("--kind off", white), ("--kind fs", white), ("--kind off --zero 000000", black)] {
            folder.badge(&format!("draw --mode {} {options} in.pam out.pam", mode.name)).bytes();
            let first = if without { drawn } else { clear };
            assert_eq!(folder.image("out.pam").pixels[..8], [first, white].concat(), "{}, {options}", mode.name);
        }
    }
}

#[test]
fn a_pixel_without_alpha_counts_in_its_tile() {
    let folder = Folder::with(&[("in.pam", rgba(2, &[[200, 100, 50, 0], [255; 4]]))]);
    for mode in modes() {
        let [none, one] = [0, 1].map(|limit| {
            folder.badge(&format!("draw --mode {} --kind off --tile 1x1 --limit {limit} in.pam out.pam", mode.name))
        });
        one.bytes();
        let tile = if WITHOUT_ALPHA.contains(&mode.name) { 0 } else { 1 };
        let line = format!("refused with 8: tile {tile} (column {tile}, row 0, tiles of 1x1) has more than 0 colours");
        assert_eq!(none.one_line(3), line, "{}", mode.name);
    }
}

#[test]
fn zero_origin_tile_and_limit_are_the_librarys() {
    let grey = |x, y| [[(13 * x + 7 * y) as u8; 3].as_slice(), &[255]].concat().try_into().unwrap();
    let folder = Folder::with(&[("in.pam", painted(20, 17, grey))]);
    let (image, console) = (folder.image("in.pam"), Console::new(modes().next().unwrap(), "truncate"));
    let (fs, ordered) = (settings(FLOYD_STEINBERG), settings(BAYER_8X8));
    // Lower bits of colour zero play no part.
    let zeroed = Settings { color_zero: Some(ReducedColor([20, 20, 20, 255])), ..fs };
    let cases = [
        ("--limit 256 --kind 10 --zero A5A0A7", zeroed, fs),
        ("--limit 256 --kind 10 --zero #a5a0a7", zeroed, fs),
        ("--limit 256 --kind 3 --origin 3,5", Settings { origin: [3, 5], ..ordered }, ordered),
        ("--limit 256 --kind 3 --origin 5,3", Settings { origin: [5, 3], ..ordered }, ordered),
        ("--limit 2 --kind 3 --tile 1x1", Settings { tile: [1, 1], limit: 2, ..ordered }, ordered),
    ];
    for (options, with, without) in cases {
        folder.badge(&format!("draw {options} in.pam out.pam")).bytes();
        let [with, without] = [with, without].map(|settings| console.drawn(settings, &image));
        assert!(folder.image("out.pam").pixels == with && with != without, "{options}");
    }
}

#[test]
fn names_of_one_mode_or_kind() {
    let folder = Folder::with(&[("in.pam", noise(3, 9, 9, false))]);
    let bytes = |options: &str| folder.badge(&format!("draw --limit 256 {options} in.pam -")).bytes().to_vec();
    let same = "
        --mode snes => --mode SNES
        --kind fs => --kind 10
        --kind floyd-steinberg => --kind=FloydSteinberg
        --mode snes => --kind floyd_steinberg
        --kind bayer4 => --kind Bayer-4x4
        --kind 2 => --kind bayer4
        --mode gba-affine => --mode GbaAffine
        --mode gb => --mode GB
        --mode sms => --mode Sms
        --mode ngp => --mode Ws";
    table(same).for_each(|(one, other)| assert!(bytes(one) == bytes(other), "{one}, {other}"));
    assert!(bytes("--kind 2") != bytes("--kind 10") && bytes("--mode gg") != bytes("--mode snes"));
}

#[test]
fn png_by_its_name_and_else_pam() {
    let [orange, black, clear] = [[255, 132, 0, 255], [0, 0, 0, 255], [9, 9, 9, 100]];
    let folder = Folder::with(&[("2.pam", rgba(2, &[orange, black])), ("3.pam", rgba(3, &[orange, black, clear]))]);
    for (width, out, bytes) in [
        (2, "out.png", sheet::png::encode(2, 1, 3, &[255, 132, 0, 0, 0, 0])),
        (3, "OUT.PNG", sheet::png::encode(3, 1, 4, &[255, 132, 0, 255, 0, 0, 0, 255, 0, 0, 0, 0])),
        (2, "out.png.pam", rgba(2, &[orange, black])),
        (3, "png", rgba(3, &[orange, black, [0; 4]])),
    ] {
        let ran = folder.badge(&format!("draw --kind off {width}.pam {out}"));
        assert_eq!(ran.said(), format!("{out}: {width}x1, snes, off\n"));
        assert_eq!(folder.read(out), bytes, "{out}");
    }
}
