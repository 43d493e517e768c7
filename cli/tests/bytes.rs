//! Arbitrary bytes as files and as words: never a crash, at most one line on
//! standard error, and nothing left over.

mod common;

use std::ffi::OsString;
use std::fs;
use std::os::unix::ffi::OsStringExt;

use common::{Folder, Ran, Rng, noise, rgb};

/// A run that ended well or in good order. OUT is there only where all is fine,
/// and is removed.
#[track_caller]
fn in_order(folder: &Folder, ran: &Ran, what: &str) {
    match ran.status {
        Some(0 | 1) => assert_eq!(ran.stderr, "", "{what}"),
        Some(status @ (2 | 3)) => _ = ran.one_line(status),
        _ => panic!("{what}: {ran:?}"),
    }
    let written = fs::remove_file(folder.path("out")).is_ok();
    assert!(!written || ran.status == Some(0), "{what}");
    assert_eq!(folder.names(), "fine.pam in.pam", "{what}");
}

/// Some bytes changed, put in or taken out.
fn mutated(rng: &mut Rng, mut file: Vec<u8>) -> Vec<u8> {
    for _ in 0..=rng.below(3) {
        let (at, [byte]) = (rng.below(file.len()), rng.bytes());
        match rng.below(4) {
            0 => file[at] = byte,
            1 => file[at] = b"0123456789 \n#\t"[rng.below(14)],
            2 => file.insert(at, byte),
            _ => _ = file.remove(at),
        }
    }
    file
}

/// Random bytes, or a real file: cut, as it is, or with some bytes changed.
fn file(rng: &mut Rng) -> Vec<u8> {
    let (seed, bytes) = (rng.0, rng.bytes::<300>());
    let real = if rng.below(2) == 0 { noise(seed, 3, 2, true) } else { rgb(2, &[rng.bytes(), rng.bytes()]) };
    let commented = [b"P7\n# nothing that has to be read\n", &real[3..]].concat();
    match rng.below(8) {
        0 => bytes[rng.below(300)..].to_vec(),
        1 => [b"P7\n", &bytes[rng.below(300)..]].concat(),
        2 => real[..rng.below(real.len())].to_vec(),
        3 => real,
        _ => mutated(rng, commented),
    }
}

const COMMANDS: [&str; 14] = [
    "draw in.pam out",
    "draw - out",
    "info in.pam",
    "compare in.pam fine.pam",
    "compare - in.pam",
    "gallery in.pam out",
    "gallery --palette in.pam fine.pam out",
    "quantize --palette fine.pam in.pam out",
    "quantize --palette in.pam fine.pam out",
    "quantize --palette - in.pam out",
    "draw --mode gb in.pam out",
    "info --mode sms in.pam",
    "gallery --mode ngp --palette in.pam fine.pam out",
    "quantize --mode ws --palette in.pam fine.pam out",
];

#[test]
fn files() {
    let folder = Folder::with(&[("fine.pam", rgb(2, &[[9; 3]; 2]))]);
    let (mut rng, mut seen) = (Rng(11), [0; 4]);
    for round in 0..60 {
        let input = file(&mut rng);
        folder.write("in.pam", &input);
        for words in COMMANDS {
            let ran = folder.fed(words, &input);
            in_order(&folder, &ran, &format!("round {round}, {words}"));
            seen[ran.status.unwrap() as usize] += 1;
        }
    }
    assert!(seen[0] > 50 && seen[1] > 5 && seen[3] > 200, "some are read, and more are refused: {seen:?}");
}

/// A word that a command line can have: any bytes but 0.
fn word(rng: &mut Rng) -> OsString {
    let count = rng.below(12);
    let mut sign = || if rng.below(3) == 0 { b"0123456789x,#-=abcf"[rng.below(19)] } else { 1 + rng.below(255) as u8 };
    OsString::from_vec((0..count).map(|_| sign()).collect())
}

#[test]
fn words() {
    let folder = Folder::with(&["fine.pam", "in.pam"].map(|name| (name, rgb(2, &[[9; 3]; 2]))));
    let options = ["--mode", "--kind", "--rounding", "--tile", "--limit", "--zero", "--origin", "--palette"];
    let mut rng = Rng(12);
    for round in 0..700 {
        let option = options[rng.below(options.len())];
        let command = if option == "--palette" { "quantize" } else { ["draw", "gallery"][rng.below(2)] };
        let mut words = [command, option, "", "in.pam", "out"].map(OsString::from);
        words[2] = word(&mut rng);
        match rng.below(4) {
            // `--name=value`, and then nothing but operands.
            0 => {
                let value = std::mem::replace(&mut words[2], "--".into());
                ["=".into(), value].iter().for_each(|part| words[1].push(part));
            }
            // The subcommand, the option or the file is another word.
            1 => words[[0, 1, 3][rng.below(3)]] = word(&mut rng),
            _ => {}
        }
        in_order(&folder, &folder.run(&words, b""), &format!("round {round}: {words:?}"));
    }
}
