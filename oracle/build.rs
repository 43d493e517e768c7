//! Makes the copy of the original that is compiled here, and looks up which
//! calls the port's archive has.
//!
//! The copy is `hooked.rs` in OUT_DIR: the original's text with probes appended
//! that reach private functions, and with three functions renamed so that lent
//! tables and lent opaque pixels can answer in their place.

#[path = "build/original.rs"]
mod original;

use std::path::PathBuf;
use std::{env, fs};

use original::{Texts, fail};

/// The calls of the C interface.
const CALLS: [&str; 12] = [
    "badge_to_oklab",
    "badge_oklab_sqdist",
    "badge_ordered_threshold",
    "badge_bracket_width",
    "badge_lerp",
    "badge_nearest",
    "badge_nearest_two",
    "badge_ordered_bracket",
    "badge_pick",
    "badge_candidate_colors_in",
    "badge_quantize_pixels",
    "badge_dither_to_mode",
];

fn main() {
    original::write("hooked.rs", &hooked(original::texts()));
    link_port();
}

/// Renames the one function that `opening` opens, so that another can stand
/// under its name.
fn renamed(text: &str, opening: &str, name: &str) -> String {
    let count = text.matches(opening).count();
    if count != 1 {
        fail(&[format!("the hooked text `{opening}` occurs {count} times and not once")]);
    }
    text.replacen(opening, &opening.replace(name, &format!("original_{name}")), 1)
}

/// The texts with their probes and without the names that these take.
fn hooked(Texts { color, mode_color, dither, image }: Texts) -> Texts {
    let mode_color = renamed(&mode_color, "\nfn opaque_threshold(", "opaque_threshold");
    let mode_color = renamed(&mode_color, "\nfn reduce_channel(", "reduce_channel");
    let mode_color = renamed(&mode_color, "\nconst fn scale_up(", "scale_up");
    let image = renamed(&image, "\n    pub fn color_at(", "color_at");
    Texts {
        color,
        mode_color: mode_color + include_str!("src/probes/mode_color.rs"),
        dither: dither + include_str!("src/probes/dither.rs"),
        image: image + include_str!("src/probes/image.rs"),
    }
}

/// Links the archive if it is there and sets `has_NAME` for each call in it.
fn link_port() {
    println!("cargo::rerun-if-env-changed=PORT_LIB");
    for call in CALLS {
        println!("cargo::rustc-check-cfg=cfg(has_{call})");
    }
    let path = PathBuf::from(env::var("PORT_LIB").unwrap_or_else(|_| "../crates/exports/out/libexports.a".into()));
    println!("cargo::rerun-if-changed={}", path.display());
    let Ok(bytes) = fs::read(&path) else {
        return;
    };
    let symbols = archive_symbols(&bytes);
    for call in CALLS.iter().filter(|call| symbols.iter().any(|s| s == *call)) {
        println!("cargo::rustc-cfg=has_{call}");
    }
    let path = path.canonicalize().unwrap();
    println!("cargo::rustc-link-search=native={}", path.parent().unwrap().display());
    println!("cargo::rustc-link-lib=static:+verbatim={}", path.file_name().unwrap().display());
}

/// The names in an archive's index: its first member, called `/`, holds a count,
/// as many offsets and then the names, each ended by a zero byte.
fn archive_symbols(bytes: &[u8]) -> Vec<String> {
    let index = bytes.strip_prefix(b"!<arch>\n").filter(|rest| rest.starts_with(b"/ ")).and_then(|rest| {
        let size: usize = std::str::from_utf8(rest.get(48..58)?).ok()?.trim().parse().ok()?;
        let content = rest.get(60..60 + size)?;
        let count = u32::from_be_bytes(content.get(..4)?.try_into().ok()?) as usize;
        content.get(4 + 4 * count..)
    });
    let Some(names) = index else {
        fail(&["the port's archive has no index of symbols".into()]);
    };
    names.split(|&b| b == 0).map(|name| String::from_utf8_lossy(name).into_owned()).collect()
}
