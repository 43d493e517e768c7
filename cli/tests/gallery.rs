//! `gallery`: what each panel of the sheet shows.

mod common;

use badge_dither::pam::Image;
use common::expected::DRAWN;
use common::{Folder, noise, painted, table};

/// Pixels of a 16x8 picture are enlarged to 16x16. Five panels stand side by
/// side, 10 apart; below each is a caption of one line or two.
const TIMES: usize = 16;
const PANEL: [usize; 2] = [16 * TIMES, 8 * TIMES];
const ONE_LINE: usize = 28;
const TWO_LINES: usize = 50;

fn pixel(image: &Image, [x, y]: [usize; 2]) -> [u8; 4] {
    image.pixels[4 * (y * image.width as usize + x)..][..4].try_into().unwrap()
}

/// Where a panel's upper left corner is; the first one has the source.
fn corner(place: usize, caption: usize) -> [usize; 2] {
    [10 + place % 5 * (PANEL[0] + 10), 10 + place / 5 * (PANEL[1] + caption)]
}

/// Whether a panel shows a picture, by the middles of its large pixels. White
/// shows where the picture is transparent.
fn shows(sheet: &Image, place: usize, caption: usize, picture: &Image) -> bool {
    let corner = corner(place, caption);
    let mut places = (0..16 * 8).map(|i| [i % 16, i / 16]);
    places.all(|at| {
        let middle = [0, 1].map(|k| corner[k] + at[k] * TIMES + TIMES / 2);
        let color = pixel(picture, at);
        pixel(sheet, middle) == if color[3] < 128 { [255; 4] } else { color }
    })
}

/// A line of a panel's caption, as one list of colours.
fn text(sheet: &Image, place: usize, caption: usize, line: usize) -> Vec<[u8; 4]> {
    let [left, top] = corner(place, caption);
    let rows = (top + PANEL[1] + 6 + 22 * line..).take(16);
    rows.flat_map(|y| (left..left + PANEL[0]).map(move |x| [x, y])).map(|at| pixel(sheet, at)).collect()
}

#[test]
fn every_kind_on_a_panel_of_its_own() {
    let folder = Folder::with(&[("in.pam", noise(7, 16, 8, true)), ("five.pam", noise(8, 5, 1, false))]);
    let passes = "
        --mode md --palette five.pam => quantize
        --mode gb --rounding nearest --palette five.pam => quantize
        --mode ws --origin 1,2 --zero 102030 => draw
        --mode sms --limit 64 --origin 3,1 => draw
        --mode gg --rounding nearest --limit 256 --origin 1,2 --zero 102030 => draw";
    for (options, command) in table(passes) {
        let ran = folder.badge(&format!("gallery {options} in.pam sheet.pam"));
        assert_eq!(ran.said(), "sheet.pam: 1340x322, 9 kinds\n");
        let sheet = folder.image("sheet.pam");
        assert_eq!((sheet.width, sheet.height), (1340, 322));
        assert!(shows(&sheet, 0, ONE_LINE, &folder.image("in.pam")));
        for (place, kind) in (1..).zip(DRAWN) {
            folder.badge(&format!("{command} {options} --kind {kind} in.pam one.pam")).bytes();
            assert!(shows(&sheet, place, ONE_LINE, &folder.image("one.pam")), "{command} by kind {kind}");
        }
        let mut captions: Vec<_> = (0..10).map(|place| text(&sheet, place, ONE_LINE, 0)).collect();
        captions.sort();
        captions.dedup();
        assert_eq!(captions.len(), 10, "each panel has a caption of its own, and two rows are full");
    }
}

#[test]
fn a_tile_over_its_limit_is_shown_and_marked() {
    // Four greys of the mode in the second of two tiles.
    for (mode, step) in [("snes", 66), ("ngp", 73), ("gb", 85), ("sms", 85)] {
        let level = |x, y| if x >= 8 && y < 4 && x - 8 == y { step * y as u8 } else { 0 };
        let odd = |x, y| [[level(x, y); 3].as_slice(), &[255]].concat().try_into().unwrap();
        let folder = Folder::with(&[("in.pam", painted(16, 8, odd))]);
        folder.badge(&format!("gallery --mode {mode} --limit 3 in.pam sheet.pam")).bytes();
        let sheet = folder.image("sheet.pam");
        assert!(shows(&sheet, 1, TWO_LINES, &folder.image("in.pam")), "the kind off changes none of these colours");
        let red = |color: &[u8; 4]| color[0] > 200 && color[1] < 50;
        let marked = [0, 1].map(|place| text(&sheet, place, TWO_LINES, 1).iter().filter(|color| red(color)).count());
        assert!(marked[0] == 0 && marked[1] > 50, "the tile is named below its panel: {marked:?}");
        let [left, top] = corner(1, TWO_LINES);
        let edges = [left - 1, left + PANEL[0] / 2 - 1, left + PANEL[0]].map(|x| red(&pixel(&sheet, [x, top + 5])));
        assert_eq!(edges, [false, true, true], "the second tile is framed");
    }
}

#[test]
fn a_large_sheet_is_png_only() {
    let folder = Folder::with(&[("in.pam", painted(320, 320, |_, _| [0, 0, 0, 255]))]);
    let line = "refused with 2: 1660x706 is more than 4096 on a side or 1048576 pixels: \
                out.pam would be PAM, and .png has no such bound";
    assert_eq!(folder.badge("gallery in.pam out.pam").one_line(3), line);
    assert_eq!(folder.badge("gallery in.pam out.png").said(), "out.png: 1660x706, 9 kinds\n");
    assert_eq!(folder.read("out.png")[16..24], [0, 0, 6, 124, 0, 0, 2, 194]);
    assert_eq!(folder.names(), "in.pam out.png");
}
