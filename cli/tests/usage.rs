//! Words that make no sense: one line that says what is meant, and status 2.

mod common;

use std::ffi::OsStr;
use std::os::unix::ffi::OsStrExt;

use common::{Folder, rgb, table};

const LINES: &str = "
    drwa in.pam out => unknown subcommand drwa: did you mean draw?
    quantise => unknown subcommand quantise: did you mean quantize?
    --verison => unknown subcommand --verison: did you mean --version?
    help galery => unknown subcommand galery: did you mean gallery?
    draw --mdoe snes in.pam out => unknown option --mdoe: did you mean --mode?
    draw in.pam --rouding=nearest out => unknown option --rouding: did you mean --rounding?
    quantize --pallete x in.pam out => unknown option --pallete: did you mean --palette?
    quantize --in x in.pam out => unknown option --in: did you mean --indices?
    gallery -mode snes in.pam out => unknown option -mode: did you mean --mode?
    info --limits 3 in.pam => unknown option --limits: did you mean --limit?
    compare --mode snes in.pam in.pam => unknown option --mode: did you mean --help?
    modes --hlep => unknown option --hlep: did you mean --help?
    draw --help=1 in.pam out => --help takes no value
    draw in.pam out --kind => --kind wants KIND after it
    draw --kind off --kind=off in.pam out => --kind is given twice
    quantize in.pam out => --palette PALETTE.pam is missing: its pixels are the palette's entries
    gallery --tile=8x8 --palette in.pam in.pam out => --tile is of the mode pass and does not go with --palette
    gallery --limit=16 --palette in.pam in.pam out => --limit is of the mode pass and does not go with --palette
    gallery --zero=000000 --palette in.pam in.pam out => --zero is of the mode pass and does not go with --palette
    gallery --origin=0,0 --palette in.pam in.pam out => --origin is of the mode pass and does not go with --palette
    draw => IN.pam is missing: ./badge help draw says more
    draw in.pam => OUT is missing: ./badge help draw says more
    compare in.pam => B.pam is missing: ./badge help compare says more
    info => IN.pam is missing: ./badge help info says more
    draw in.pam out more => more is one word too many for draw
    info in.pam -- --more => --more is one word too many for info
    kinds all => all is one word too many for kinds
    compare - - => standard input can be read once, and - stands for it twice
    quantize --palette - - out => standard input can be read once, and - stands for it twice
    gallery --palette - - out => standard input can be read once, and - stands for it twice
    quantize --palette in.pam --indices - in.pam - => - and - are one file
    draw --mode sness in.pam out => unknown mode sness: did you mean snes? ./badge modes lists them
    info --mode pcesprit in.pam => unknown mode pcesprit: did you mean pce-sprite? ./badge modes lists them
    draw --mode smss in.pam out => unknown mode smss: did you mean sms? ./badge modes lists them
    draw --kind floyd in.pam out => unknown kind floyd: did you mean floyd-steinberg? ./badge kinds lists them
    draw --kind Atkinsen in.pam out => unknown kind Atkinsen: did you mean atkinson? ./badge kinds lists them
    quantize --palette in.pam --kind -1 in.pam out => unknown kind -1: did you mean fs? ./badge kinds lists them
    draw --kind stipple in.pam out => unknown kind stipple: did you mean line-v? ./badge kinds lists them
    draw --kind stipple-w in.pam out => unknown kind stipple-w: did you mean line-v? ./badge kinds lists them
    quantize --palette in.pam --kind stiple_h in.pam out => unknown kind stiple_h: did you mean line_h? ./badge kinds lists them";

#[test]
fn one_line_says_what_is_meant() {
    let folder = Folder::with(&[("in.pam", rgb(1, &[[0; 3]]))]);
    table(LINES).for_each(|(words, line)| assert_eq!(folder.badge(words).one_line(2), line, "{words}"));
    assert_eq!(folder.run(&[""; 0], b"").one_line(2), "a subcommand is missing: ./badge help lists them");
    // Signs that would break the line or colour the terminal are spelt out.
    let ran = folder.badge("draw a\nb\u{1b}[31m\t out");
    assert_eq!(ran.one_line(2), "a\\nb\\u{1b}[31m\\t: No such file or directory");
    assert_eq!(folder.badge("a\rb").one_line(2), "unknown subcommand a\\rb: did you mean draw?");
    assert_eq!(folder.names(), "in.pam");
}

#[test]
fn forms_of_values() {
    let forms = "
        --tile WxH => 8 8x 8x8x8 8X8 -8x8 +8x8 4294967296x8
        --limit N => x -1 1.5 0x10 4294967296
        --zero RRGGBB => 12345 1234567 12345g +12345 ##12345 #ffff #
        --origin X,Y => 1 1, ,1 1,2,3 -1,0 1;2 4294967296,0
        --rounding truncate|nearest => Nearest up down";
    let folder = Folder::with(&[("in.pam", rgb(1, &[[0; 3]]))]);
    for (option, values) in table(forms) {
        let (name, form) = option.split_once(' ').unwrap();
        for value in values.split(' ').chain([""]) {
            let line = format!("{name} {value} is not of the form {form}");
            assert_eq!(folder.badge(&format!("draw {name} {value} in.pam out")).one_line(2), line);
            assert_eq!(folder.badge(&format!("draw in.pam out {name}={value}")).one_line(2), line);
        }
        let words =
            [OsStr::new("draw"), OsStr::new(name), OsStr::from_bytes(b"\xff"), OsStr::new("in.pam"), OsStr::new("out")];
        assert_eq!(folder.run(&words, b"").one_line(2), format!("{name} \u{fffd} is not of the form {form}"));
    }
    assert_eq!(folder.names(), "in.pam");
}

#[test]
fn two_dashes_and_values_after_an_equals_sign() {
    let folder = Folder::with(&[("--in.pam", rgb(1, &[[0; 3]])), ("a=b.pam", rgb(1, &[[0; 3]]))]);
    folder.badge("draw --tile=1x1 --kind=off -- --in.pam --out.pam").bytes();
    folder.badge("quantize --palette=a=b.pam a=b.pam --kind off out.pam").bytes();
    assert_eq!(folder.names(), "--in.pam --out.pam a=b.pam out.pam");
    let name = OsStr::from_bytes(b"\xff.pam");
    std::fs::write(folder.path("").join(name), rgb(1, &[[0; 3]])).unwrap();
    let words = [OsStr::new("quantize"), OsStr::from_bytes(b"--palette=\xff.pam"), name, OsStr::new("out.png")];
    assert_eq!(folder.run(&words, b"").said(), "out.png: 1x1, snes, floyd-steinberg, 1 entry\n");
}
