//! Why a command ends without having done what it was asked to: one line and an
//! exit status.

use std::ffi::OsStr;
use std::io;

use badge_dither::Refusal;

pub struct Trouble {
    /// 2: usage, or a file that can't be read or written. 3: refused by the
    /// library.
    pub status: u8,
    /// None where the reader of standard output has left, who needs no line.
    line: Option<String>,
}

impl Trouble {
    pub fn usage(line: impl Into<String>) -> Trouble {
        Trouble { status: 2, line: Some(line.into()) }
    }

    /// A file that can't be read or written.
    pub fn file(name: &OsStr, wrong: &io::Error) -> Trouble {
        let said = wrong.to_string();
        // The system's number says nothing that its words do not.
        let words = said.split(" (os error").next().unwrap_or_default();
        let line = (wrong.kind() != io::ErrorKind::BrokenPipe).then(|| format!("{}: {words}", shown(name)));
        Trouble { status: 2, line }
    }

    /// A refusal of the library, in words.
    pub fn refused(refusal: Refusal, words: &str) -> Trouble {
        Trouble { status: 3, line: Some(format!("refused with {}: {words}", refusal.number())) }
    }

    pub fn say(&self) {
        if let Some(line) = &self.line {
            // Where standard error is gone too, the status still tells.
            let _ = io::Write::write_all(&mut io::stderr(), format!("badge: {line}\n").as_bytes());
        }
    }
}

/// A name or a text on one line: control characters are escaped.
pub fn shown(text: impl AsRef<OsStr>) -> String {
    let text = text.as_ref().to_string_lossy();
    let escaped = |sign: char| if sign.is_control() { sign.escape_default().to_string() } else { sign.to_string() };
    text.chars().map(escaped).collect()
}
