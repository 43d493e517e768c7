//! What is written, read by netpbm and by ImageMagick where they are installed.

mod common;

use std::process::Command;

use badge_dither::pam::{self, Image};
use common::{Folder, left_out, noise};

/// Drawn pictures with and without transparent pixels and a sheet, each as PAM
/// and as PNG: the names, and what is in both files.
fn pictures(folder: &Folder) -> Vec<(String, Image)> {
    folder.write("in.pam", &noise(1, 37, 29, false));
    folder.write("clear.pam", &noise(2, 37, 29, true));
    let mut pictures = Vec::new();
    for (command, input, out) in [("draw", "in", "drawn"), ("draw", "clear", "holed"), ("gallery", "clear", "sheet")] {
        let names = ["pam", "png"].map(|form| format!("{out}.{form}"));
        names.iter().for_each(|name| _ = folder.badge(&format!("{command} --limit 256 {input}.pam {name}")).bytes());
        let image = folder.image(&names[0]);
        assert_eq!(image.pixels.chunks(4).any(|pixel| pixel == [0; 4]), out == "holed");
        pictures.extend(names.map(|name| (name, image.clone())));
    }
    pictures
}

/// What a program says, without a warning.
#[track_caller]
fn said(folder: &Folder, program: &str, words: &[&str]) -> Vec<u8> {
    let output = folder.command(program).args(words).output().expect(program);
    let wrong = String::from_utf8_lossy(&output.stderr);
    assert!(output.status.success() && wrong.is_empty(), "{program} {words:?}: {wrong}");
    output.stdout
}

#[test]
fn netpbm_reads_the_same_pixels() {
    if ["pamfile", "pamtopam", "pngtopam"].iter().any(|tool| Command::new(tool).arg("--version").output().is_err()) {
        return left_out("netpbm is not installed");
    }
    let folder = Folder::with(&[]);
    for (name, image) in pictures(&folder) {
        let read = if name.ends_with(".png") {
            said(&folder, "pngtopam", &["-alphapam", &name])
        } else {
            let line = String::from_utf8(said(&folder, "pamfile", &[&name])).unwrap();
            assert!(line.contains(&format!("{} by {} by 4 maxval 255", image.width, image.height)), "{line}");
            said(&folder, "sh", &["-c", "pamtopam <\"$0\"", &name])
        };
        assert!(pam::read(&read).expect("a PAM file") == image, "{name}");
    }
}

/// ImageMagick by its path: another program may have the name convert.
fn magick() -> Option<&'static str> {
    ["/usr/bin/magick", "/usr/bin/convert-im6.q16", "/usr/bin/convert"].into_iter().find(|program| {
        let version = Command::new(program).arg("-version").output();
        version.is_ok_and(|output| String::from_utf8_lossy(&output.stdout).contains("ImageMagick"))
    })
}

#[test]
fn imagemagick_reads_the_same_pixels() {
    let Some(magick) = magick() else { return left_out("ImageMagick is not installed") };
    let folder = Folder::with(&[]);
    for (name, image) in pictures(&folder) {
        let size = said(&folder, magick, &[&name, "-format", "%w %h", "info:"]);
        assert_eq!(String::from_utf8_lossy(&size), format!("{} {}", image.width, image.height), "{name}");
        assert!(said(&folder, magick, &[&name, "-depth", "8", "rgba:-"]) == image.pixels, "{name}");
    }
}
