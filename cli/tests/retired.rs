//! Retired kinds: an order that names one is refused in one line, which says
//! what there is to choose from; badges that were drawn by one still open.

mod common;

use common::expected::DRAWN;
use common::{Folder, OLD, noise, rgb, rgba, table};

/// Every way to name a retired kind.
const ORDERS: &str = "
    5 (stipple-v) => stipple-v stipple_v StippleV STIPPLE-V stipplev 5 05
    6 (stipple-h) => stipple-h stipple_h StippleH Stipple_H stippleh 6 006";

/// What there is to choose from.
const CHOICES: &str = "off, bayer-2x2, bayer-4x4, bayer-8x8, checker, line-v, line-h, atkinson, floyd-steinberg";

/// A folder with a picture, a palette that is too long, and an old OUT.
fn folder() -> Folder {
    let long = rgb(257, &[[0; 3]; 257]);
    Folder::with(&[("in.pam", noise(1, 8, 8, true)), ("long.pam", long), ("out.pam", OLD.to_vec())])
}

/// A run is refused, leaves the old OUT, and makes no new file.
#[track_caller]
fn refused(folder: &Folder, words: &str, kind: &str) {
    let line = format!("refused with 15: kind {kind} is retired, choose another: {CHOICES}");
    assert_eq!(folder.badge(words).one_line(3), line, "{words}");
    assert_eq!((folder.read("out.pam").as_slice(), folder.names().as_str()), (OLD, "in.pam long.pam out.pam"));
}

#[test]
fn an_order_is_refused_by_name_and_by_number() {
    let folder = folder();
    for (kind, words) in table(ORDERS) {
        for word in words.split(' ') {
            for out in ["out.pam", "new.png", "-"] {
                refused(&folder, &format!("draw --kind {word} in.pam {out}"), kind);
                refused(&folder, &format!("quantize --kind={word} --palette in.pam --indices i in.pam {out}"), kind);
            }
        }
    }
}

#[test]
fn it_is_refused_before_all_that_an_order_can_have_wrong_besides() {
    let folder = folder();
    for words in [
        "draw --kind 5 --origin 4294967295,0 in.pam out.pam",
        "draw --kind 5 --tile 0x8 --limit 257 in.pam out.pam",
        "draw --kind 5 --limit 0 in.pam out.pam",
        "quantize --kind 5 --palette long.pam in.pam out.pam",
        "draw --mode gb --kind 5 --tile 0x8 in.pam out.pam",
        "quantize --mode sms --kind 5 --palette long.pam in.pam out.pam",
    ] {
        refused(&folder, words, "5 (stipple-v)");
    }
}

#[test]
fn what_there_is_to_choose_from_is_drawn() {
    let folder = folder();
    for (name, kind) in CHOICES.split(", ").zip(DRAWN) {
        let [by_name, by_number] = [name.to_string(), kind.to_string()]
            .map(|word| folder.badge(&format!("draw --kind {word} --limit 64 in.pam -")).bytes().to_vec());
        assert!(by_name == by_number, "{name} is {kind}");
    }
    assert_eq!(CHOICES.split(", ").count(), DRAWN.len());
}

/// A badge of black and a quarter white, as the vertical stipple drew it. A file
/// holds no kind.
fn filed() -> Vec<u8> {
    let [black, white] = [[0, 0, 0, 255], [255; 4]];
    rgba(4, &[[black, white, black, white], [black; 4], [black, white, black, white], [black; 4]].concat())
}

#[test]
fn badges_that_were_drawn_still_open() {
    let folder = Folder::with(&[("filed.pam", filed()), ("cartridge.pam", filed())]);
    assert_eq!(folder.badge("compare filed.pam cartridge.pam").said(), "same\n");
    let info = folder.badge("info filed.pam");
    assert!(info.said().starts_with("size                4x4, 16 pixels\n"), "{info:?}");
    // It can be drawn anew by any other kind, and none changes its colours.
    for kind in DRAWN {
        folder.badge(&format!("draw --kind {kind} filed.pam anew.pam")).bytes();
        assert_eq!(folder.badge("compare filed.pam anew.pam").said(), "same\n", "kind {kind}");
        folder.badge(&format!("quantize --kind {kind} --palette filed.pam filed.pam anew.pam")).bytes();
        assert_eq!(folder.badge("compare filed.pam anew.pam").said(), "same\n", "kind {kind}");
    }
    assert!(folder.badge("gallery filed.pam sheet.png").said().ends_with(", 9 kinds\n"));
}
