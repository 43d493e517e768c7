//! The largest square, by every kind and in modes of each reduction.

mod common;

use common::expected::{DRAWN, WITHOUT_ALPHA};
use common::{Folder, painted, rgba};

/// 1024x1024 pixels, whose 65,536 colours are 1,024 after reduction.
fn folder() -> Folder {
    let pixels = painted(1024, 1024, |x, y| [(x / 4) as u8, (y / 4) as u8, 128, 255]);
    let entries: Vec<[u8; 4]> = (0..64).map(|i| [i % 8 * 36, i / 8 * 36, 128, 255]).collect();
    Folder::with(&[("in.pam", pixels), ("palette.pam", rgba(8, &entries))])
}

/// Runs a command twice, by each kind: the size is the picture's, and both
/// pictures are the same.
fn every_kind(command: &str) {
    let folder = folder();
    for kind in DRAWN {
        for out in ["one.pam", "two.pam"] {
            let said = folder.badge(&format!("{command} --kind {kind} in.pam {out}"));
            assert!(said.said().starts_with(&format!("{out}: 1024x1024, snes, ")), "kind {kind}");
        }
        let image = folder.image("one.pam");
        assert_eq!((image.width, image.height, image.pixels.len()), (1024, 1024, 4 << 20));
        assert!(image.pixels.chunks(4).any(|pixel| pixel != &image.pixels[..4]), "kind {kind}");
        assert_eq!(folder.badge("compare one.pam two.pam").said(), "same\n", "kind {kind}");
    }
}

#[test]
fn drawn_by_every_kind() {
    every_kind("draw --limit 64");
}

#[test]
fn quantized_by_every_kind() {
    every_kind("quantize --palette palette.pam");
}

#[test]
fn drawn_in_modes_without_transparent_pixels() {
    let folder = folder();
    for mode in WITHOUT_ALPHA {
        let said = folder.badge(&format!("draw --mode {mode} in.pam out.pam"));
        assert_eq!(said.said(), format!("out.pam: 1024x1024, {mode}, floyd-steinberg\n"));
        let image = folder.image("out.pam");
        assert_eq!((image.width, image.height, image.pixels.len()), (1024, 1024, 4 << 20));
        assert!(image.pixels.chunks(4).all(|pixel| pixel[3] == 255), "{mode}");
        assert!(image.pixels.chunks(4).any(|pixel| pixel != &image.pixels[..4]), "{mode}");
    }
}
