//! `info`: size, colours, transparent pixels, and tiles over a limit.

mod common;

use common::{Folder, painted, rgb, table};

/// 12x10 pixels in four tiles of 8x8: two blacks, of which one is black after
/// reduction only, and a transparent pixel; five reds; sixteen greens; blue.
fn tiles() -> Vec<u8> {
    painted(12, 10, |x, y| match (x, y) {
        (0, 0) => [9, 9, 9, 127],
        (1, 0) => [7, 0, 0, 128],
        (0..8, 0..8) => [0, 0, 0, 255],
        (_, 0..8) => [8 * y.min(4) as u8, 0, 0, 255],
        (0..8, _) => [0, 8 * (x + 8 * (y - 8)) as u8, 0, 255],
        _ => [0, 0, 255, 255],
    })
}

/// What is said, with one blank for several.
#[track_caller]
fn told(folder: &Folder, words: &str) -> Vec<String> {
    let ran = folder.fed(words, &tiles());
    ran.said().lines().map(|line| line.split_whitespace().collect::<Vec<_>>().join(" ")).collect()
}

#[test]
fn all_lines() {
    let folder = Folder::with(&[("in.pam", tiles())]);
    let lines = [
        "size 12x10, 120 pixels",
        "transparent 1 pixel",
        "colours 22, and 21 in mode snes",
        "tiles of 8x8 4; most in tile 2 (column 0, row 1): 16 colours",
        "over 4 colours 2 tiles: 1-2",
        "over 16 colours no tile",
        "over 256 colours no tile",
    ];
    assert_eq!(told(&folder, "info in.pam"), lines);
    assert_eq!(told(&folder, "info -"), lines);
    assert_eq!(folder.names(), "in.pam");
}

#[test]
fn options_count() {
    // By rounding to the nearest the one black is a red.
    let cases = "
        info --limit 15 - => 8x8 4; most in tile 2 (column 0, row 1): 16 colours / over 15 colours 1 tile: 2
        info --limit 1 - => 8x8 4; most in tile 2 (column 0, row 1): 16 colours / over 1 colours 2 tiles: 1-2
        info --limit 0 --mode md - => 8x8 4; most in tile 2 (column 0, row 1): 4 colours / over 0 colours 4 tiles: 0-3
        info --limit 2 --mode md - => 8x8 4; most in tile 2 (column 0, row 1): 4 colours / over 2 colours 1 tile: 2
        info --tile 4x8 --limit 5 - => 4x8 6; most in tile 3 (column 0, row 1): 8 colours / over 5 colours 2 tiles: 3-4
        info --tile 5x2 --limit 5 - => 5x2 15; most in tile 12 (column 0, row 4): 10 colours / over 5 colours 2 tiles: 12-13
        info --rounding nearest --limit 1 - => 8x8 4; most in tile 2 (column 0, row 1): 16 colours / over 1 colours 3 tiles: 0-2";
    for (words, tiles) in table(cases) {
        let lines = told(&Folder::with(&[]), words);
        assert_eq!(lines[3..].join(" / "), format!("tiles of {tiles}"), "{words}");
    }
}

#[test]
fn modes_without_transparent_pixels() {
    // The pixel that is transparent in other modes has a colour more, and reduces to black.
    let cases = "
        gb => colours 23, and 2 in mode gb / tiles of 8x8 4; most in tile 2 (column 0, row 1): 2 colours
        ngp => colours 23, and 3 in mode ngp / tiles of 8x8 4; most in tile 2 (column 0, row 1): 3 colours
        ws => colours 23, and 3 in mode ws / tiles of 8x8 4; most in tile 2 (column 0, row 1): 3 colours
        sms => colours 23, and 3 in mode sms / tiles of 8x8 4; most in tile 2 (column 0, row 1): 2 colours";
    let folder = Folder::with(&[("clear.pam", painted(1, 1, |_, _| [1, 2, 3, 0]))]);
    for (mode, said) in table(cases) {
        let lines = told(&folder, &format!("info --mode {mode} -"));
        assert_eq!(lines[1..4].join(" / "), format!("transparent 0 pixels / {said}"));
        let lines = told(&folder, &format!("info --mode {mode} --limit 0 clear.pam"));
        let said = format!("transparent 0 pixels / colours 1, and 1 in mode {mode}");
        assert_eq!((lines[1..3].join(" / "), lines[4].as_str()), (said, "over 0 colours 1 tile: 0"));
    }
}

#[test]
fn ranges_and_a_picture_without_colours() {
    let pixels = [0, 255, 0, 0, 0, 255, 255, 0, 0, 0].map(|v| [v; 3]);
    let folder = Folder::with(&[("in.pam", rgb(10, &pixels)), ("clear.pam", painted(1, 1, |_, _| [1, 2, 3, 0]))]);
    assert_eq!(told(&folder, "info --tile 2x1 --limit 1 in.pam")[4], "over 1 colours 3 tiles: 0, 2-3");
    let lines = told(&folder, "info --limit 0 clear.pam");
    let said = ["size 1x1, 1 pixel", "transparent 1 pixel", "colours 0, and 0 in mode snes"];
    assert_eq!((&lines[..3], lines[4].as_str()), (&said.map(String::from)[..], "over 0 colours no tile"));
}
