//! Every refusal that the command can reach: its number, the values that led
//! to it, status 3, and OUT as it was.

mod common;

use common::expected::modes;
use common::{Folder, OLD, header, painted, rgb, table};

/// A folder with pictures that are refused for one reason or another, and an
/// old OUT.
fn folder() -> Folder {
    let deep = b"P7\nWIDTH 1\nHEIGHT 1\nDEPTH 3\nMAXVAL 65535\nTUPLTYPE RGB\nENDHDR\n\0\0\0\0\0\0";
    let six = rgb(2, &[[0; 3]; 6]);
    Folder::with(&[
        ("in.pam", rgb(2, &[[0; 3]; 2])),
        ("257.pam", rgb(257, &[[0; 3]; 257])),
        ("4096.pam", rgb(64, &[[0; 3]; 4096])),
        ("wide.pam", header(4097, 1, "RGB")),
        ("large.pam", header(1025, 1024, "RGB_ALPHA")),
        ("cut.pam", six[..76].to_vec()),
        ("more.pam", [&six[..], b"\n"].concat()),
        ("deep.pam", deep.to_vec()),
        ("flat.pam", header(0, 1, "RGB")),
        ("text.pam", b"P6\n1 1\n255\nabc".to_vec()),
        ("none.pam", Vec::new()),
        ("out.pam", OLD.to_vec()),
    ])
}

/// A run is refused with the line, leaves the old OUT, and makes no new one.
#[track_caller]
fn refused(folder: &Folder, words: &str, line: &str) {
    let names = folder.names();
    for words in [words, &words.replace("out.pam", "new.png")] {
        assert_eq!(folder.badge(words).one_line(3), format!("refused with {line}"), "{words}");
        assert_eq!((folder.read("out.pam").as_slice(), &folder.names()), (OLD, &names), "{words}");
    }
}

#[test]
fn kinds_sizes_and_entries() {
    let cases = "
        draw --kind 11 in.pam out.pam => 1: kind 11 is none of 0 to 10
        quantize --kind 4294967295 --palette in.pam in.pam out.pam => 1: kind 4294967295 is none of 0 to 10
        draw --origin 4294967294,0 in.pam out.pam => 2: origin 4294967294,0 and the picture's 2x1 add up to more than 4294967295
        gallery --origin 0,4294967295 in.pam out.pam => 2: origin 0,4294967295 and the picture's 2x1 add up to more than 4294967295
        quantize --palette 257.pam in.pam out.pam => 4: a palette has 1 to 256 entries, and 257.pam has 257 (257x1 pixels)
        gallery --palette 4096.pam in.pam out.pam => 4: a palette has 1 to 256 entries, and 4096.pam has 4096 (64x64 pixels)";
    let folder = folder();
    for (words, line) in table(cases) {
        refused(&folder, words, line);
        modes().for_each(|mode| refused(&folder, &format!("{words} --mode {}", mode.name), line));
    }
    folder.badge("draw --origin 4294967293,4294967294 in.pam new.pam").bytes();
}

#[test]
fn tiles_and_limits() {
    let cases = "
        --tile 0x8 => a tile of 0x8 or a limit of 16
        --tile 8x0 => a tile of 8x0 or a limit of 16
        --tile 4097x1 => a tile of 4097x1 or a limit of 16
        --tile 1x4294967295 => a tile of 1x4294967295 or a limit of 16
        --limit 257 => a tile of 8x8 or a limit of 257
        --tile 2x3 --limit 1000 => a tile of 2x3 or a limit of 1000";
    for (options, values) in table(cases) {
        let line = format!("5: {values}: sides go from 1 to 4096, the limit from 0 to 256");
        for words in ["draw OPTIONS in.pam out.pam", "gallery OPTIONS in.pam out.pam", "info OPTIONS in.pam"] {
            refused(&folder(), &words.replace("OPTIONS", options), &line);
        }
    }
    folder().badge("draw --tile 4096x4096 --limit 256 in.pam new.pam").bytes();
    folder().badge("draw --tile 1x1 --limit 1 in.pam new.pam").bytes();
}

#[test]
fn the_first_tile_that_is_over() {
    // Of three tiles across and three down those with numbers 4 and 8 have three colours.
    let color = |x: usize, y: usize| match ((x / 8, y / 4), x % 8) {
        ((1, 1) | (2, 2), level @ 1..=2) => [[100 * level as u8; 3].as_slice(), &[255]].concat().try_into().unwrap(),
        _ => [0, 0, 0, 255],
    };
    let folder = Folder::with(&[("in.pam", painted(20, 12, color)), ("out.pam", OLD.to_vec())]);
    let cases = "
        8x4 => 8: tile 4 (column 1, row 1, tiles of 8x4) has more than 2 colours
        20x3 => 8: tile 1 (column 0, row 1, tiles of 20x3) has more than 2 colours
        3x12 => 8: tile 3 (column 3, row 0, tiles of 3x12) has more than 2 colours";
    for mode in modes() {
        for (tile, line) in table(cases) {
            refused(
                &folder,
                &format!("draw --mode {} --kind off --tile {tile} --limit 2 in.pam out.pam", mode.name),
                line,
            );
        }
        folder.badge(&format!("draw --mode {} --kind off --tile 8x4 --limit 3 in.pam -", mode.name)).bytes();
    }
}

#[test]
fn files_that_are_not_read() {
    let other = "no PAM file of RGB or RGB_ALPHA with MAXVAL 255, or one without pixels:";
    let cases = "
        wide.pam => 2: a side above 4096 or more than 1048576 pixels: wide.pam has \"WIDTH 4097\", \"HEIGHT 1\"
        large.pam => 2: a side above 4096 or more than 1048576 pixels: large.pam has \"WIDTH 1025\", \"HEIGHT 1024\"
        deep.pam => 10: OTHER deep.pam, of 67 bytes, begins with \"P7\" and has \"WIDTH 1\", \"HEIGHT 1\", \"DEPTH 3\", \"MAXVAL 65535\", \"TUPLTYPE RGB\"
        flat.pam => 10: OTHER flat.pam, of 59 bytes, begins with \"P7\" and has \"WIDTH 0\", \"HEIGHT 1\", \"DEPTH 3\", \"MAXVAL 255\", \"TUPLTYPE RGB\"
        text.pam => 10: OTHER text.pam, of 14 bytes, begins with \"P6\"
        none.pam => 10: OTHER none.pam, of 0 bytes, begins with \"\"
        cut.pam => 11: PIXELS cut.pam has 76 bytes in all, with \"WIDTH 2\", \"HEIGHT 3\", \"DEPTH 3\"
        more.pam => 11: PIXELS more.pam has 78 bytes in all, with \"WIDTH 2\", \"HEIGHT 3\", \"DEPTH 3\"";
    for (file, line) in table(cases) {
        let line = line.replace("OTHER", other).replace("PIXELS", "pixels are missing or something is left over:");
        for words in ["draw IT out.pam", "gallery IT out.pam", "compare in.pam IT", "compare IT in.pam", "info IT"] {
            refused(&folder(), &words.replace("IT", file), &line);
        }
        for words in ["quantize --palette in.pam IT out.pam", "quantize --palette IT in.pam out.pam"] {
            refused(&folder(), &words.replace("IT", file), &line);
            refused(&folder(), &words.replace("IT", file).replace("quantize", "gallery"), &line);
        }
    }
    let line = format!("refused with 10: {other} standard input, of 3 bytes, begins with \"\u{fffd}\\0\"");
    assert_eq!(folder().fed("info -", b"\xff\0\n").one_line(3), line);
}
