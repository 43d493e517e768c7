//! The original's text, as the build scripts of `oracle` and `bench` take it.
//!
//! None of it stands in the repository: it is read from the folder named by
//! `DOCS_SRC` (default: `shared` beside the repository), and is the text that we
//! know only if its checksums are those below. A copy is written to OUT_DIR, with
//! the stand-ins around it.

mod sha256;

use std::path::{Path, PathBuf};
use std::{env, fs, process};

/// A document that is read, with its SHA-256.
type Document = (&'static str, &'static str);

const COLOR: Document = ("src--src--color.rs.txt", "e25fd146496f07d1ffef60f6d29964252fed2902d12b5694a92f21dc180f5e8f");
const MODE_COLOR: Document =
    ("src--src--mode--color.rs.txt", "35f1c8ab0aaf95989ac9cce4f99ace94a7ec26916055991f81084148358ed212");
const DITHER: Document =
    ("src--src--dither.rs.txt", "9549cc65a3117092f06c9014d045b3b9cf6183043430714135f0be5d367ba37d");

/// What stands in for the two types that are not in these texts.
const MODE: &str = include_str!("../src/standins/mode.rs");
const IMAGE: &str = include_str!("../src/standins/image.rs");

/// The three files, and the picture type that stands in.
pub struct Texts {
    pub color: String,
    pub mode_color: String,
    pub dither: String,
    pub image: String,
}

/// Ends the build with some lines.
pub fn fail(lines: &[String]) -> ! {
    lines.iter().for_each(|line| println!("cargo::error={line}"));
    process::exit(1)
}

/// A file of the original, or what is wrong with it: it must be the text that
/// everything here was written for.
fn text(folder: &Path, (name, pinned): Document) -> Result<String, String> {
    let path = folder.join(name);
    println!("cargo::rerun-if-changed={}", path.display());
    let text = fs::read_to_string(&path).map_err(|_| {
        format!("{name} is not in the folder {}: set DOCS_SRC to the folder of the original's text", folder.display())
    })?;
    let found = sha256::hex(text.as_bytes());
    if found == pinned {
        return Ok(text);
    }
    Err(format!("{name} differs from the text that is known here: its SHA-256 is {found} and not {pinned}"))
}

/// The three files, or the end of the build with a line for each that is wrong.
pub fn texts() -> Texts {
    println!("cargo::rerun-if-env-changed=DOCS_SRC");
    let folder = PathBuf::from(env::var("DOCS_SRC").unwrap_or_else(|_| "../../shared".into()));
    match [COLOR, MODE_COLOR, DITHER].map(|document| text(&folder, document)) {
        [Ok(color), Ok(mode_color), Ok(dither)] => Texts { color, mode_color, dither, image: IMAGE.into() },
        texts => fail(&texts.into_iter().filter_map(Result::err).collect::<Vec<_>>()),
    }
}

/// Writes a copy: the modules under the names and in the places that the
/// original expects.
pub fn write(name: &str, Texts { color, mode_color, dither, image }: &Texts) {
    let quiet = "#[allow(dead_code, clippy::all)]\n";
    let modules = format!(
        "{quiet}pub mod color {{\n{color}\n}}\n\
         {quiet}pub mod mode {{\n{MODE}\npub mod color {{\n{mode_color}\n}}\n}}\n\
         {quiet}pub mod image {{\n{image}\n}}\n\
         {quiet}pub mod dither {{\n{dither}\n}}\n"
    );
    fs::write(Path::new(&env::var("OUT_DIR").unwrap()).join(name), modules).unwrap();
}
