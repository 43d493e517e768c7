//! Files in and out. What is written is written whole or not at all: to a file
//! beside its place, then renamed. `-` is standard input or output.

use std::ffi::OsStr;
use std::fs::{self, File, OpenOptions};
use std::io::{self, IsTerminal, Read, Write};
use std::path::{Path, PathBuf};
use std::process;

use badge_dither::pam::{self, Image};
use sheet::png;

use crate::refused;
use crate::trouble::{Trouble, shown};

/// The most that is read of a file: the largest picture takes 4 MiB, and a
/// header may have comments. A device that never ends is left here.
const MOST: u64 = 64 << 20;

const DASH: &str = "-";

/// How a file is named in a message.
fn named<'a>(name: &'a OsStr, standard: &'a str) -> &'a OsStr {
    if name == DASH { OsStr::new(standard) } else { name }
}

/// Standard input can be read once.
pub fn apart(one: &OsStr, other: &OsStr) -> Result<(), Trouble> {
    match one == DASH && other == DASH {
        true => Err(Trouble::usage("standard input can be read once, and - stands for it twice")),
        false => Ok(()),
    }
}

/// Two files out must not be one.
pub fn different(one: &OsStr, other: &OsStr) -> Result<(), Trouble> {
    let whole = |name: &OsStr| {
        if name == DASH {
            // No whole path of a file is that short.
            return Some(DASH.into());
        }
        let (place, _) = place(Path::new(name)).ok()?;
        let folder = place.parent().filter(|folder| !folder.as_os_str().is_empty()).unwrap_or(Path::new("."));
        Some(fs::canonicalize(folder).ok()?.join(place.file_name()?))
    };
    match whole(one).is_some_and(|path| whole(other) == Some(path)) {
        true => Err(Trouble::usage(format!("{} and {} are one file", shown(one), shown(other)))),
        false => Ok(()),
    }
}

fn bytes(from: impl Read) -> io::Result<Vec<u8>> {
    let mut bytes = Vec::new();
    from.take(MOST + 1).read_to_end(&mut bytes)?;
    if bytes.len() as u64 > MOST {
        return Err(io::Error::other("more than 64 MiB"));
    }
    Ok(bytes)
}

/// The picture in a PAM file.
pub fn picture(name: &OsStr) -> Result<Image, Trouble> {
    let shown = named(name, "standard input");
    let read = if name == DASH { bytes(io::stdin().lock()) } else { File::open(name).and_then(bytes) };
    let file = read.map_err(|wrong| Trouble::file(shown, &wrong))?;
    pam::read(&file).map_err(|refusal| refused::reading(refusal, shown, &file))
}

/// Whether a name asks for PNG.
fn is_png(name: &OsStr) -> bool {
    let bytes = name.as_encoded_bytes();
    bytes.len() >= 4 && bytes[bytes.len() - 4..].eq_ignore_ascii_case(b".png")
}

/// A picture as its name asks for it: PNG, or else PAM.
pub fn encoded(name: &OsStr, image: &Image) -> Result<Vec<u8>, Trouble> {
    if !is_png(name) {
        let size = [image.width, image.height];
        return pam::write(image.picture()).map_err(|refusal| refused::writing(refusal, named(name, "OUT"), size));
    }
    let opaque = image.pixels.chunks_exact(4).all(|pixel| pixel[3] == 255);
    Ok(match opaque {
        true => {
            let rgb: Vec<u8> = image.pixels.chunks_exact(4).flat_map(|pixel| [pixel[0], pixel[1], pixel[2]]).collect();
            png::encode(image.width, image.height, 3, &rgb)
        }
        false => png::encode(image.width, image.height, 4, &image.pixels),
    })
}

/// Bytes on their way to a file.
pub enum Ready<'a> {
    /// They stand in a file beside their place.
    Beside { name: &'a OsStr, place: PathBuf, written: Beside },
    /// They go straight to where no file can be put: standard output, a
    /// device or a pipe.
    Straight { name: &'a OsStr, bytes: Vec<u8> },
}

/// A file beside another, removed unless it is renamed.
pub struct Beside(PathBuf);

impl Drop for Beside {
    fn drop(&mut self) {
        // There is no file any more if it was renamed.
        let _ = fs::remove_file(&self.0);
    }
}

/// Makes ready to write: after this only `put` can fail, and as good as never.
pub fn ready<'a>(name: &'a OsStr, bytes: Vec<u8>) -> Result<Ready<'a>, Trouble> {
    let trouble = |wrong: io::Error| Trouble::file(named(name, "standard output"), &wrong);
    if name == DASH {
        if io::stdout().is_terminal() {
            return Err(Trouble::usage("standard output is a terminal: a picture needs a file or a pipe"));
        }
        return Ok(Ready::Straight { name, bytes });
    }
    let (place, old) = place(Path::new(name)).map_err(trouble)?;
    match old {
        Some(old) if !old.is_file() && !old.is_dir() => Ok(Ready::Straight { name, bytes }),
        old => {
            let written = beside(&place, old, &bytes).map_err(trouble)?;
            Ok(Ready::Beside { name, place, written })
        }
    }
}

/// Where a file goes, and what is there now. A link leads to its target, which
/// is what gets replaced; a pipe behind a link has no other name than the link.
fn place(path: &Path) -> io::Result<(PathBuf, Option<fs::Metadata>)> {
    match fs::symlink_metadata(path) {
        Err(wrong) if wrong.kind() == io::ErrorKind::NotFound && can_name_file(path) => Ok((path.into(), None)),
        Err(wrong) => Err(wrong),
        Ok(_) => {
            let old = fs::metadata(path)?;
            let target = if old.is_file() { fs::canonicalize(path)? } else { path.into() };
            Ok((target, Some(old)))
        }
    }
}

/// Whether a path ends in a file's name: `folder/` and an empty one do not, and
/// no file could be renamed to them.
fn can_name_file(path: &Path) -> bool {
    let whole = path.as_os_str().as_encoded_bytes();
    path.file_name().is_some_and(|name| whole.ends_with(name.as_encoded_bytes()))
}

/// Writes the bytes to a new file in the folder of a place, with the rights of
/// the file that is there.
fn beside(place: &Path, old: Option<fs::Metadata>, bytes: &[u8]) -> io::Result<Beside> {
    if old.is_some() {
        // A folder or a file that may not be written to is not replaced.
        OpenOptions::new().write(true).open(place)?;
    }
    let (path, mut file) = new_file(place.parent().unwrap_or(Path::new("")))?;
    let written = Beside(path);
    // Before the bytes, which others may not be allowed to see.
    if let Some(old) = old {
        file.set_permissions(old.permissions())?;
    }
    file.write_all(bytes)?;
    // A disk may find out late that it is full.
    file.sync_all()?;
    Ok(written)
}

/// A file under a name that none has.
fn new_file(folder: &Path) -> io::Result<(PathBuf, File)> {
    let mut tries = 0;
    loop {
        let path = folder.join(format!(".badge-{}-{tries}", process::id()));
        match File::create_new(&path) {
            Err(wrong) if wrong.kind() == io::ErrorKind::AlreadyExists && tries < 1000 => tries += 1,
            made => return made.map(|file| (path, file)),
        }
    }
}

impl Ready<'_> {
    /// Puts the file in its place.
    pub fn put(self) -> Result<(), Trouble> {
        match self {
            Ready::Beside { name, place, written } => {
                fs::rename(&written.0, place).map_err(|wrong| Trouble::file(name, &wrong))
            }
            Ready::Straight { name, bytes } if name == DASH => print(&bytes),
            Ready::Straight { name, bytes } => {
                let opened = OpenOptions::new().write(true).open(name);
                let written = opened.and_then(|mut file| file.write_all(&bytes));
                written.map_err(|wrong| Trouble::file(name, &wrong))
            }
        }
    }
}

/// Puts several files in their places. What goes straight out can still fail,
/// and goes before any file is replaced.
pub fn put_all(mut files: Vec<Ready>) -> Result<(), Trouble> {
    files.sort_by_key(|file| matches!(file, Ready::Beside { .. }));
    files.into_iter().try_for_each(Ready::put)
}

/// Writes to standard output.
pub fn print(bytes: &[u8]) -> Result<(), Trouble> {
    let mut out = io::stdout().lock();
    let written = out.write_all(bytes).and_then(|()| out.flush());
    written.map_err(|wrong| Trouble::file(OsStr::new("standard output"), &wrong))
}

/// A line that says what was done, unless standard output is one of the files.
pub fn tell(out: &[Option<&OsStr>], line: &str) -> Result<(), Trouble> {
    if out.contains(&Some(OsStr::new(DASH))) { Ok(()) } else { print(format!("{line}\n").as_bytes()) }
}
