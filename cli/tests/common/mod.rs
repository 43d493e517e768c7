//! What the tests share: a folder of a test's own with the command run in it,
//! and PAM files made by hand. Each test file uses a part of it.
#![allow(dead_code)]

pub mod expected;

use std::ffi::OsStr;
use std::io::{self, Write};
use std::path::PathBuf;
use std::process::{self, Command, Stdio};
use std::sync::atomic::{AtomicU32, Ordering};
use std::{env, fs};

use badge_dither::pam::{self, Image};

pub const BADGE: &str = env!("CARGO_BIN_EXE_badge");
/// What an old OUT holds.
pub const OLD: &[u8] = b"what was there";

/// What a run of a command left behind. A signal leaves no status.
#[derive(Debug)]
pub struct Ran {
    pub status: Option<i32>,
    pub stdout: Vec<u8>,
    pub stderr: String,
}

impl Ran {
    pub fn of(output: process::Output) -> Ran {
        let stderr = String::from_utf8_lossy(&output.stderr).into();
        Ran { status: output.status.code(), stdout: output.stdout, stderr }
    }

    /// Standard output, where all is fine.
    #[track_caller]
    pub fn bytes(&self) -> &[u8] {
        assert_eq!((self.status, self.stderr.as_str()), (Some(0), ""));
        &self.stdout
    }

    /// The same as text.
    #[track_caller]
    pub fn said(&self) -> &str {
        str::from_utf8(self.bytes()).expect("text")
    }

    /// The one line of a run with that status that says nothing else.
    #[track_caller]
    pub fn one_line(&self, status: i32) -> &str {
        assert_eq!((self.status, self.stdout.len()), (Some(status), 0), "{self:?}");
        let line = self.stderr.strip_prefix("badge: ").and_then(|line| line.strip_suffix('\n'));
        line.filter(|line| !line.contains('\n')).unwrap_or_else(|| panic!("not one line: {:?}", self.stderr))
    }
}

/// A folder of a test's own.
pub struct Folder(PathBuf);

impl Folder {
    pub fn with(files: &[(&str, Vec<u8>)]) -> Folder {
        static COUNT: AtomicU32 = AtomicU32::new(0);
        let name = format!("badge-test-{}-{}", process::id(), COUNT.fetch_add(1, Ordering::Relaxed));
        let folder = Folder(env::temp_dir().join(name));
        fs::create_dir(&folder.0).expect("a new folder");
        files.iter().for_each(|(name, bytes)| folder.write(name, bytes));
        folder
    }

    pub fn path(&self, name: &str) -> PathBuf {
        self.0.join(name)
    }

    pub fn write(&self, name: &str, bytes: &[u8]) {
        fs::write(self.path(name), bytes).expect("a file that can be written");
    }

    #[track_caller]
    pub fn read(&self, name: &str) -> Vec<u8> {
        fs::read(self.path(name)).unwrap_or_else(|wrong| panic!("{name}: {wrong}"))
    }

    #[track_caller]
    pub fn image(&self, name: &str) -> Image {
        pam::read(&self.read(name)).expect("a PAM file")
    }

    /// The names of all that is there, in order.
    pub fn names(&self) -> String {
        let entries = fs::read_dir(&self.0).expect("the folder");
        let name =
            |entry: io::Result<fs::DirEntry>| entry.expect("an entry").file_name().to_string_lossy().into_owned();
        let mut names: Vec<String> = entries.map(name).collect();
        names.sort();
        names.join(" ")
    }

    /// A program that is to run in the folder.
    pub fn command(&self, program: &str) -> Command {
        let mut command = Command::new(program);
        command.current_dir(&self.0).stdin(Stdio::null());
        command
    }

    /// Runs the command with some bytes on standard input.
    pub fn run(&self, words: &[impl AsRef<OsStr>], stdin: &[u8]) -> Ran {
        let mut command = self.command(BADGE);
        command.args(words).stdin(Stdio::piped()).stdout(Stdio::piped()).stderr(Stdio::piped());
        let mut child = command.spawn().expect("the command");
        // It may have ended without reading all or any of it.
        let _ = child.stdin.take().expect("a pipe").write_all(stdin);
        Ran::of(child.wait_with_output().expect("an end"))
    }

    /// The same with words that have one blank between them.
    pub fn fed(&self, words: &str, stdin: &[u8]) -> Ran {
        self.run(&words.split(' ').collect::<Vec<_>>(), stdin)
    }

    pub fn badge(&self, words: &str) -> Ran {
        self.fed(words, b"")
    }
}

impl Drop for Folder {
    fn drop(&mut self) {
        let _ = fs::remove_dir_all(&self.0);
    }
}

/// The lines of a table: words, and after an arrow what is said.
pub fn table(text: &'static str) -> impl Iterator<Item = (&'static str, &'static str)> {
    text.trim().lines().map(|line| line.trim_start().split_once(" => ").expect("an arrow"))
}

/// Says that a test was left out, past the test's own output, which is not
/// shown.
pub fn left_out(why: &str) {
    let _ = io::stderr().write_all(format!("\nleft out: {why}\n").as_bytes());
}

/// The front of a file; `kind` is RGB or RGB_ALPHA.
pub fn header(width: usize, height: usize, kind: &str) -> Vec<u8> {
    let depth = if kind == "RGB" { 3 } else { 4 };
    format!("P7\nWIDTH {width}\nHEIGHT {height}\nDEPTH {depth}\nMAXVAL 255\nTUPLTYPE {kind}\nENDHDR\n").into()
}

pub fn rgb(width: usize, pixels: &[[u8; 3]]) -> Vec<u8> {
    [header(width, pixels.len() / width, "RGB"), pixels.concat()].concat()
}

pub fn rgba(width: usize, pixels: &[[u8; 4]]) -> Vec<u8> {
    [header(width, pixels.len() / width, "RGB_ALPHA"), pixels.concat()].concat()
}

/// A file in which each pixel has a colour by its column and row.
pub fn painted(width: usize, height: usize, mut color: impl FnMut(usize, usize) -> [u8; 4]) -> Vec<u8> {
    rgba(width, &(0..width * height).map(|i| color(i % width, i / width)).collect::<Vec<_>>())
}

/// Random numbers (xorshift).
pub struct Rng(pub u64);

impl Rng {
    pub fn below(&mut self, bound: usize) -> usize {
        self.0 ^= self.0 << 13;
        self.0 ^= self.0 >> 7;
        self.0 ^= self.0 << 17;
        (self.0 >> 16) as usize % bound
    }

    pub fn bytes<const N: usize>(&mut self) -> [u8; N] {
        std::array::from_fn(|_| self.below(256) as u8)
    }
}

/// A file of noise, with some transparent pixels if asked for.
pub fn noise(seed: u64, width: usize, height: usize, transparent: bool) -> Vec<u8> {
    let mut rng = Rng(seed);
    painted(width, height, |_, _| match rng.bytes() {
        [r, g, b, a @ 0..64] if transparent => [r, g, b, a],
        [r, g, b, _] => [r, g, b, 255],
    })
}
