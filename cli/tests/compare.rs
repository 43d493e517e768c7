//! `compare`: the gate's question, with its exit statuses.

mod common;

use common::{Folder, Ran, rgb, rgba};

/// What is said of two pictures that differ.
#[track_caller]
fn differs(ran: &Ran) -> &str {
    assert_eq!((ran.status, ran.stderr.as_str()), (Some(1), ""));
    str::from_utf8(&ran.stdout).unwrap()
}

#[test]
fn the_same_pixels_are_the_same() {
    let other =
        b"P7\n# a comment\nTUPLTYPE RGB\nDEPTH 3\nMAXVAL 255\nHEIGHT 1\nWIDTH 2\nENDHDR\n\x01\x02\x03\x04\x05\x06";
    let with_alpha = rgba(2, &[[1, 2, 3, 255], [4, 5, 6, 255]]);
    let folder = Folder::with(&[("a", rgb(2, &[[1, 2, 3], [4, 5, 6]])), ("b", other.to_vec()), ("c", with_alpha)]);
    for words in ["compare a a", "compare a b", "compare b c", "compare -- c a"] {
        assert_eq!(folder.badge(words).said(), "same\n", "{words}");
    }
    assert_eq!(folder.fed("compare - a", &folder.read("c")).said(), "same\n");
}

#[test]
fn the_first_difference_and_how_many_there_are() {
    let mut pixels = [[16, 32, 48, 255]; 15];
    let folder = Folder::with(&[("a", rgba(5, &pixels))]);
    pixels[13] = [0; 4];
    folder.write("b", &rgba(5, &pixels));
    pixels[7][3] = 254;
    folder.write("c", &rgba(5, &pixels));
    let said = "differs: first at column 3, row 2, #102030ff and #00000000; 1 of 15 pixels differ\n";
    assert_eq!(differs(&folder.badge("compare a b")), said);
    let said = "differs: first at column 2, row 1, #102030fe and #102030ff; 2 of 15 pixels differ\n";
    assert_eq!(differs(&folder.badge("compare c a")), said);
}

#[test]
fn other_sizes_differ_and_what_is_not_there_does_not() {
    let folder = Folder::with(&[("a", rgb(2, &[[0; 3]; 6])), ("b", rgb(3, &[[0; 3]; 6]))]);
    assert_eq!(differs(&folder.badge("compare a b")), "differs: the sizes are 2x3 and 3x2\n");
    for words in ["compare a none", "compare none a"] {
        assert_eq!(folder.badge(words).one_line(2), "none: No such file or directory");
    }
}
