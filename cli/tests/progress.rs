//! The line about long work: on a terminal and nowhere else, and gone in the
//! end.

mod common;

use common::{BADGE, Folder, left_out, noise, rgb};

/// A picture that takes some seconds, as nearly every pixel has another colour,
/// and one that takes none.
fn folder() -> Folder {
    Folder::with(&[("long.pam", noise(1, 208, 208, false)), ("short.pam", rgb(1, &[[0; 3]]))])
}

/// What puts a line over the one before it.
const OVER: &str = "\r\x1b[K";

/// What is seen on a terminal, where one can be had, is held to be right.
fn on_terminal(words: &str, right: impl Fn(&str)) {
    let line = format!("'{BADGE}' {words}");
    match folder().command("script").args(["-qec", &line, "/dev/null"]).output() {
        Ok(output) if output.stderr.is_empty() => right(&String::from_utf8_lossy(&output.stdout)),
        _ => left_out("the line about long work: util-linux's script is not installed"),
    }
}

#[test]
fn long_work_is_shown_and_the_line_is_cleared() {
    on_terminal("draw --kind bayer8 --limit 64 long.pam out.pam", |seen| {
        let lines: Vec<&str> = seen.split(OVER).collect();
        let ["", "drawing 208x208 by bayer-8x8: 1 s", more @ .., end] = &lines[..] else { panic!("{seen:?}") };
        assert!(
            more.iter().all(|line| line.starts_with("drawing ") || line.starts_with("writing out.pam: ")),
            "{seen:?}"
        );
        assert_eq!(*end, "out.pam: 208x208, snes, bayer-8x8\r\n");
    });
}

#[test]
fn a_refusal_comes_after_the_line_is_cleared() {
    on_terminal("draw --kind bayer8 --limit 10 long.pam out.pam", |seen| {
        let line = "badge: refused with 8: tile 0 (column 0, row 0, tiles of 8x8) has more than 10 colours\r\n";
        assert!(seen.starts_with(&format!("{OVER}drawing ")) && seen.ends_with(&format!("{OVER}{line}")), "{seen:?}");
    });
}

#[test]
fn short_work_is_not_shown() {
    on_terminal("draw short.pam out.pam", |seen| assert_eq!(seen, "out.pam: 1x1, snes, floyd-steinberg\r\n"));
    let line = "badge: standard output is a terminal: a picture needs a file or a pipe\r\n";
    on_terminal("draw short.pam -", |seen| assert_eq!(seen, line));
}

#[test]
fn nothing_is_shown_elsewhere() {
    let said = folder().badge("draw --kind bayer8 --limit 64 long.pam out.pam");
    assert_eq!(said.said(), "out.pam: 208x208, snes, bayer-8x8\n");
}
