//! PAM files: what is read, the form that is written, every refusal from each
//! call that can give it, and the order of the refusals.

mod common;

use badge_dither::*;
use common::*;

/// A file: the lines after `P7`, each without its newline, and then the pixels.
fn file(lines: &[&str], pixels: &[u8]) -> Vec<u8> {
    let mut bytes = b"P7\n".to_vec();
    for line in lines {
        bytes.extend_from_slice(line.as_bytes());
        bytes.push(b'\n');
    }
    bytes.extend_from_slice(pixels);
    bytes
}

const WIDTH: &str = "WIDTH 1";
const HEIGHT: &str = "HEIGHT 1";
const DEPTH: &str = "DEPTH 4";
const MAXVAL: &str = "MAXVAL 255";
const TUPLTYPE: &str = "TUPLTYPE RGB_ALPHA";
const END: &str = "ENDHDR";
const LINES: [&str; 6] = [WIDTH, HEIGHT, DEPTH, MAXVAL, TUPLTYPE, END];

/// The number that reading a file is refused with, having made sure that both
/// ways of asking agree and that nothing is written.
fn refused(bytes: &[u8]) -> Option<u32> {
    let mut pixels = [RUBBISH; 4];
    let number = pam::size(bytes).err().map(Refusal::number);
    assert_eq!(pam::read(bytes).err().map(Refusal::number), number);
    if number.is_some() {
        assert_eq!(pam::read_into(bytes, &mut pixels).err().map(Refusal::number), number);
        assert_eq!(pixels, [RUBBISH; 4]);
    }
    number
}

/// That of a file of one pixel with the line at `place` replaced.
fn with(place: usize, line: &str) -> Option<u32> {
    let mut lines = LINES;
    lines[place] = line;
    refused(&file(&lines, b"rgba"))
}

#[test]
fn both_depths() {
    let rgba = pam::read(&file(&LINES, b"rgba")).unwrap();
    assert_eq!((rgba.width, rgba.height, rgba.pixels.as_slice()), (1, 1, &b"rgba"[..]));
    let rgb = file(&["WIDTH 1", "HEIGHT 2", "DEPTH 3", MAXVAL, "TUPLTYPE RGB", END], b"redsky");
    let image = pam::read(&rgb).unwrap();
    assert_eq!((image.width, image.height, image.pixels.as_slice()), (1, 2, &b"red\xffsky\xff"[..]));
    let mut pixels = [0; 8];
    assert_eq!((pam::size(&rgb), pam::read_into(&rgb, &mut pixels)), (Ok((1, 2)), Ok((1, 2))));
    assert_eq!(pixels, *b"red\xffsky\xff");
}

#[test]
fn lines_in_any_order() {
    for first in 0..5 {
        for second in 0..5 {
            let mut lines = LINES;
            lines[..5].rotate_left(first);
            lines.swap(0, second);
            assert_eq!(refused(&file(&lines, b"rgba")), None);
        }
    }
}

#[test]
fn comments_blanks_and_white_space() {
    let comments = ["# WIDTH 9", "#", "", " \t\x0b\x0c\r", "##ENDHDR", "#\0\u{a0}"];
    let lines = ["\tWIDTH\x0b\x0c 001\r", HEIGHT, " DEPTH\t4 ", "MAXVAL\r0255", " TUPLTYPE  RGB_ALPHA \r", " ENDHDR\r"];
    for place in 0..6 {
        for comment in comments {
            let mut all = lines.to_vec();
            all.insert(place, comment);
            assert_eq!(refused(&file(&all, b"rgba")), None);
        }
    }
}

#[test]
fn five_bytes_are_white_space() {
    let between = |byte: u8| {
        let mut bytes = file(&LINES, b"rgba");
        let gap = bytes.iter().position(|&b| b == b' ').unwrap();
        bytes[gap] = byte;
        refused(&bytes)
    };
    let white: Vec<u8> = (0..=255).filter(|&byte| between(byte).is_none()).collect();
    assert_eq!(white, [9, 11, 12, 13, 32]);
    assert!((0..=255).all(|byte| white.contains(&byte) || between(byte) == Some(10)));
}

#[test]
fn lines_that_are_not_read() {
    for (place, line) in LINES[..5].iter().enumerate() {
        let name = line.split(' ').next().unwrap();
        for wrong in ["", name, &line.to_lowercase(), &format!("{line}\n{line}"), &format!("# {line}")] {
            assert_eq!(with(place, wrong), Some(10), "{wrong:?}");
        }
    }
    for (place, line) in LINES.iter().enumerate() {
        for wrong in [format!("{line} 1"), format!("{line}\0"), format!("-{line}"), format!("nothing\n{line}")] {
            assert_eq!(with(place, &wrong), Some(10), "{wrong:?}");
        }
    }
}

#[test]
fn values_that_are_not_read() {
    for number in ["+1", "-1", "1.", "0x1", "1_", "a", "1#", "1 1"] {
        assert_eq!(with(0, &format!("WIDTH {number}")), Some(10));
    }
    for number in ["3", "1", "260", "4294967300", "18446744073709551620"] {
        assert_eq!(with(2, &format!("DEPTH {number}")), Some(10));
    }
    for number in ["254", "65535", "511", "4294967551"] {
        assert_eq!(with(3, &format!("MAXVAL {number}")), Some(10));
    }
    for name in ["RGB", "GRAYSCALE", "RGB_ALPHA_", "RGB _ALPHA", "RGB_ALPHA RGB"] {
        assert_eq!(with(4, &format!("TUPLTYPE {name}")), Some(10));
    }
}

#[test]
fn beginnings_and_ends_that_are_not_read() {
    let whole = file(&LINES, b"rgba");
    for magic in ["P6\n", "P7 \n", " P7\n", "P7\r\n", "P7", "", "\nP7\n", "#\nP7\n"] {
        assert_eq!(refused(&[magic.as_bytes(), &whole[3..]].concat()), Some(10));
    }
    for length in 0..whole.len() - 4 {
        assert_eq!(refused(&whole[..length]), Some(10), "a header that does not end");
    }
    assert_eq!(refused(&file(&LINES[..5], b"rgba\n")), Some(10));
}

#[test]
fn pixels_missing_or_left_over() {
    let whole = file(&LINES, b"rgba");
    for cut in 1..=4 {
        assert_eq!(refused(&whole[..whole.len() - cut]), Some(11));
    }
    assert_eq!(refused(&file(&LINES, b"rgba\n")), Some(11));
    assert_eq!(refused(&whole.repeat(2)), Some(11), "a second picture");
}

#[test]
fn sizes() {
    assert_eq!(with(0, "WIDTH 4096"), Some(11));
    for number in ["4097", "4294967297", "18446744073709551617", &"9".repeat(400)] {
        assert_eq!(with(0, &format!("WIDTH {number}")), Some(2));
        assert_eq!(with(1, &format!("HEIGHT {number}")), Some(2));
    }
    assert_eq!(refused(&file(&["WIDTH 1025", "HEIGHT 1024", DEPTH, MAXVAL, TUPLTYPE, END], b"")), Some(2));
    assert_eq!(with(0, "WIDTH 0"), Some(10));
    assert_eq!(with(1, "HEIGHT 000"), Some(10));
}

#[test]
fn the_order_of_the_refusals() {
    let sized = |width, last| refused(&file(&[width, HEIGHT, DEPTH, MAXVAL, TUPLTYPE, last, END], b""));
    assert_eq!(sized("WIDTH 4097", "nothing"), Some(10), "a bad line after a size that is too large");
    assert_eq!(refused(&file(&["WIDTH 4097", "HEIGHT 0", DEPTH, MAXVAL, TUPLTYPE, END], b"")), Some(10));
    assert_eq!(sized("WIDTH 4097", ""), Some(2), "and no pixels");
    assert_eq!(sized("WIDTH 1", ""), Some(11));
    for length in [0, 3, 5, 8] {
        let mut pixels = vec![RUBBISH; length];
        assert_eq!(pam::read_into(&file(&LINES, b"rgb"), &mut pixels), Err(Refusal::PamPixels));
        assert_eq!(pam::read_into(&file(&LINES, b"rgba"), &mut pixels), Err(Refusal::Length));
        assert_eq!(pixels, vec![RUBBISH; length]);
    }
}

#[test]
fn the_form_that_is_written() {
    let pixels: Vec<u8> = (0..40).collect();
    let picture = Picture { width: 10, height: 1, pixels: &pixels };
    assert_eq!(pam::write(picture).unwrap(), file(&["WIDTH 10", HEIGHT, DEPTH, MAXVAL, TUPLTYPE, END], &pixels));
    let mut bytes = vec![RUBBISH; pam::length(10, 1).unwrap()];
    assert_eq!(pam::write_into(picture, &mut bytes), Ok(()));
    assert_eq!(bytes, pam::write(picture).unwrap());
}

#[test]
fn reading_back() {
    for (width, height) in [(1, 1), (1, 9), (10, 1), (99, 100), (4096, 256), (256, 4096), (1024, 1024)] {
        let pixels: Vec<u8> = (0..4 * width * height).map(|i| (i % 251) as u8).collect();
        let image = pam::Image { width, height, pixels };
        assert_eq!(pam::read(&pam::write(image.picture()).unwrap()), Ok(image));
    }
}

#[test]
fn pictures_that_are_not_written() {
    for (width, height, refusal) in [
        (0, 1, Refusal::PamHeader),
        (1, 0, Refusal::PamHeader),
        (0, u32::MAX, Refusal::PamHeader),
        (4097, 1, Refusal::Size),
        (1, 4097, Refusal::Size),
        (1025, 1024, Refusal::Size),
        (65_536, 65_536, Refusal::Size),
    ] {
        assert_eq!(pam::length(width, height), Err(refusal));
        let mut bytes = [RUBBISH; 9];
        let picture = Picture { width, height, pixels: &[] };
        assert_eq!((pam::write(picture), pam::write_into(picture, &mut bytes)), (Err(refusal), Err(refusal)));
        assert_eq!(bytes, [RUBBISH; 9]);
    }
    let right = pam::length(1, 1).unwrap();
    for (pixels, length) in [(3, right), (5, right), (0, right), (4, right - 1), (4, right + 1), (4, 0)] {
        let (pixels, mut bytes) = (vec![0; pixels], vec![RUBBISH; length]);
        let picture = Picture { width: 1, height: 1, pixels: &pixels };
        assert_eq!(pam::write_into(picture, &mut bytes), Err(Refusal::Length));
        assert_eq!(bytes, vec![RUBBISH; length]);
    }
    assert_eq!(Refusal::PamHeader.to_string(), "10: no PAM header that is read, or no pixels");
}
