//! `quantize`: the palette's pass on files.

mod common;

use common::expected::{Console, DRAWN, WITHOUT_ALPHA, modes};
use common::{Folder, noise, painted, rgb, rgba};

const BLACK: [u8; 4] = [0, 0, 0, 255];
const WHITE: [u8; 4] = [255; 4];

#[test]
fn greys_by_hand() {
    let greys = [0, 64, 128, 192, 255].map(|v| [v; 3]);
    let folder = Folder::with(&[("in.pam", rgb(5, &greys)), ("two.pam", rgb(1, &[[0; 3], [255; 3]]))]);
    let ran = folder.badge("quantize --palette two.pam --indices i in.pam out.pam");
    assert_eq!(ran.said(), "out.pam: 5x1, snes, floyd-steinberg, 2 entries\n");
    assert_eq!(folder.read("i"), [0, 0, 1, 1, 1]);
    assert_eq!(folder.read("out.pam"), rgba(5, &[BLACK, BLACK, WHITE, WHITE, WHITE]));
    // On standard output the indices stand alone.
    assert_eq!(folder.badge("quantize --palette two.pam --indices - in.pam out.png").bytes(), [0, 0, 1, 1, 1]);
    assert_eq!(folder.names(), "i in.pam out.pam out.png two.pam");
}

#[test]
fn entries_are_reduced_and_go_row_by_row() {
    let palette = rgb(2, &[[200, 0, 0], [0, 200, 0], [0, 0, 200], [7, 7, 7]]);
    let input = rgba(4, &[[0, 0, 255, 255], [1, 1, 1, 255], [0, 255, 0, 255], [255, 0, 0, 127]]);
    let folder = Folder::with(&[("four.pam", palette), ("in.pam", input)]);
    // 200 is 25 in five bits and 206 again, 12 in four and 204, 6 in three and 219; 7 is 0 in all.
    for (mode, v) in [("gbc", 206), ("ngpc", 204), ("pce-sprite", 219)] {
        folder
            .badge(&format!("quantize --mode {mode} --kind off --palette four.pam --indices i in.pam out.pam"))
            .bytes();
        assert_eq!(folder.read("i"), [2, 3, 1, 0], "{mode}");
        assert_eq!(folder.read("out.pam"), rgba(4, &[[0, 0, v, 255], BLACK, [0, v, 0, 255], [0; 4]]), "{mode}");
    }
}

#[test]
fn every_mode_and_kind_is_the_librarys() {
    let folder = Folder::with(&[("in.pam", noise(4, 20, 17, true)), ("palette.pam", noise(5, 3, 4, true))]);
    let (image, palette) = (folder.image("in.pam"), folder.image("palette.pam"));
    for mode in modes() {
        for (kind, rounding) in DRAWN.into_iter().zip(["nearest", "truncate"].into_iter().cycle()) {
            let console = Console::new(mode, rounding);
            let options = format!("--mode {} --kind {kind} --rounding {rounding} --indices i", mode.name);
            folder.badge(&format!("quantize {options} --palette palette.pam in.pam out.pam")).bytes();
            let written = (folder.image("out.pam").pixels, folder.read("i"));
            assert!(written == console.quantized(kind, &palette, &image), "{options}");
        }
    }
}

#[test]
fn entries_of_grey_modes() {
    // The lumas are 182, 54 and 0: the last entry is transparent in the file.
    let palette = rgba(3, &[[0, 255, 0, 255], [255, 0, 0, 128], [255, 255, 255, 127]]);
    let input = rgba(4, &[[140, 140, 140, 255], [60, 60, 60, 0], BLACK, [0, 255, 0, 127]]);
    let folder = Folder::with(&[("three.pam", palette), ("in.pam", input)]);
    for (mode, [light, dark], indices) in
        [("ngp", [182, 36], [0, 1, 2, 0]), ("ws", [182, 36], [0, 1, 2, 0]), ("gb", [170, 0], [0, 1, 1, 0])]
    {
        let words = format!("quantize --mode {mode} --kind off --palette three.pam --indices i in.pam out.pam");
        assert_eq!(folder.badge(&words).said(), format!("out.pam: 4x1, {mode}, off, 3 entries\n"));
        assert_eq!(folder.read("i"), indices, "{mode}");
        let colors = [[light, light, light, 255], [dark, dark, dark, 255], BLACK];
        assert_eq!(folder.read("out.pam"), rgba(4, &indices.map(|index| colors[usize::from(index)])), "{mode}");
    }
}

#[test]
fn entries_and_pixels_without_alpha() {
    let (clear, input) = ([255, 255, 255, 0], [[255; 4], [0, 0, 0, 127], [255, 255, 255, 0]]);
    let folder = Folder::with(&[("one.pam", rgba(1, &[clear])), ("in.pam", rgba(3, &input))]);
    for mode in modes() {
        folder.badge(&format!("quantize --mode {} --palette one.pam --indices i in.pam out.pam", mode.name)).bytes();
        // By alpha the entry is transparent, and so is what is drawn in it. Else it is black.
        let drawn = if WITHOUT_ALPHA.contains(&mode.name) { BLACK } else { [0; 4] };
        assert_eq!((folder.read("out.pam"), folder.read("i")), (rgba(3, &[drawn; 3]), vec![0; 3]), "{}", mode.name);
    }
}

#[test]
fn one_entry_and_256_are_palettes() {
    let all = painted(16, 16, |x, y| [16 * x as u8, 16 * y as u8, 128, 255]);
    let folder = Folder::with(&[("all.pam", all), ("one.pam", rgb(1, &[[255; 3]]))]);
    for (name, count, counted) in [("one.pam", 1, "1 entry"), ("all.pam", 256, "256 entries")] {
        let ran = folder.badge(&format!("quantize --kind off --palette {name} --indices i all.pam out.pam"));
        assert_eq!(ran.said(), format!("out.pam: 16x16, snes, off, {counted}\n"));
        assert_eq!(folder.read("i"), (0..256).map(|i| (i % count) as u8).collect::<Vec<u8>>());
    }
}

#[test]
fn an_index_is_the_first_of_equal_entries() {
    // 7 is 0 in five bits, 248 is 31 and 135 is 16: entries that differ in the file are twins in the mode, too.
    let entries =
        [[0; 3], [255; 3], [7; 3], [248; 3], [128, 0, 0], [135, 7, 7], [0; 3], [255; 3], [128, 0, 0], [0, 0, 200]];
    let colors = entries.map(|entry| entry.map(|v: u8| v & 248 | v >> 5));
    let folder = Folder::with(&[("in.pam", noise(6, 20, 17, false)), ("twins.pam", rgb(5, &entries))]);
    for kind in DRAWN {
        folder.badge(&format!("quantize --kind {kind} --palette twins.pam --indices i in.pam out.pam")).bytes();
        let (indices, drawn) = (folder.read("i"), folder.image("out.pam").pixels);
        let first = |pixel: &[u8]| colors.iter().position(|color| color[..] == pixel[..3]).expect("an entry") as u8;
        assert_eq!(indices, drawn.chunks(4).map(first).collect::<Vec<u8>>(), "kind {kind}");
        assert!([0, 1, 4, 9].iter().all(|index| indices.contains(index)), "kind {kind}: a colour that is not drawn");
    }
}
