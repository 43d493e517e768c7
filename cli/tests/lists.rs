//! `modes`, `kinds`, `help` and `--version`.

mod common;

use common::expected::modes;
use common::{Folder, table};

/// What is said, with one blank for several.
fn said(words: &str) -> String {
    let ran = Folder::with(&[]).badge(words);
    ran.said().lines().map(|line| line.split_whitespace().collect::<Vec<_>>().join(" ") + "\n").collect()
}

#[test]
fn modes_and_kinds_with_their_numbers() {
    let lines = modes().map(|mode| format!("{} {} {} {}\n", mode.name, mode.shift, 256 >> mode.shift, mode.reduction));
    let last = "grey, opaque colour: no pixel is transparent, and one whose alpha is below 128 reduces to black\n";
    assert_eq!(said("modes"), format!("mode shift levels a channel reduction\n{}{last}", lines.collect::<String>()));
    let lines = "number kind or\n0 off\n1 bayer-2x2 bayer2\n2 bayer-4x4 bayer4\n3 bayer-8x8 bayer8\n4 checker\n\
                 7 line-v line_v\n8 line-h line_h\n9 atkinson\n10 floyd-steinberg fs\n\
                 retired, refused with 15: 5 stipple-v, 6 stipple-h\n";
    assert_eq!(said("kinds"), lines);
}

#[test]
fn version() {
    assert_eq!(said("--version"), concat!("badge ", env!("CARGO_PKG_VERSION"), "\n"));
    assert_eq!(said("-V"), said("--version"));
}

#[test]
fn help_has_every_subcommand_and_option() {
    let folder = Folder::with(&[]);
    let all = folder.badge("help");
    assert_eq!(folder.badge("--help").said(), all.said());
    assert!(all.said().contains("Exit status: 0 fine; 1 compare"));
    let usage = "
        draw [OPTIONS] IN.pam OUT => --mode --kind --rounding --tile --limit --zero --origin
        quantize [OPTIONS] IN.pam OUT => --palette --mode --kind --rounding --indices
        compare A.pam B.pam => none
        gallery [OPTIONS] IN.pam OUT => --mode --palette --rounding --tile --limit --zero --origin
        info [OPTIONS] IN.pam => --mode --rounding --tile --limit
        modes => none
        kinds => none
        help [SUBCOMMAND] => none";
    for (form, options) in table(usage) {
        let command = form.split(' ').next().unwrap();
        assert!(all.said().contains(&format!("\n  {command} ")), "{command}");
        let help = folder.badge(&format!("help {command}"));
        assert_eq!(help.said().lines().next(), Some(format!("./badge {form}").as_str()));
        let named: Vec<&str> = help.said().split_whitespace().filter(|word| word.starts_with("--")).collect();
        assert_eq!(named.join(" "), options.replace("none", ""), "{command}");
        for words in [format!("{command} --help"), format!("{command} nothing -h")] {
            assert_eq!(folder.badge(&words).said(), help.said(), "{words}");
        }
    }
}
