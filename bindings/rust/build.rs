//! Finds the archive of the badge dither and has it linked: the file named by
//! `BADGE_DITHER_LIB`, or the one that `rt lib` writes in the repository's
//! `crates/exports`.

use std::path::{Path, PathBuf};
use std::{env, fs, process};

fn main() {
    println!("cargo::rerun-if-changed=build.rs");
    println!("cargo::rerun-if-env-changed=BADGE_DITHER_LIB");
    let path = archive();
    check_target(&path);
    println!("cargo::rerun-if-changed={}", path.display());
    let (Some(folder), Some(name)) = (path.parent(), path.file_name()) else {
        fail(&format!("{} names no file", path.display()));
    };
    println!("cargo::rustc-link-search=native={}", folder.display());
    println!("cargo::rustc-link-lib=static:+verbatim={}", name.display());
}

/// Ends the build with one line.
fn fail(line: &str) -> ! {
    println!("cargo::error={line}");
    process::exit(1)
}

/// The number of the machine that an archive holds code for, as its first ELF
/// file has it.
fn machine_of(archive: &[u8]) -> Option<u16> {
    let elf = archive.windows(4).position(|word| word == b"\x7fELF")?;
    Some(u16::from_le_bytes(archive.get(elf + 18..elf + 20)?.try_into().ok()?))
}

/// The archive holds code for one kind of machine: the toolchain's for x86-64,
/// one that is named for any.
fn check_target(path: &Path) {
    let of = |name| env::var(name).unwrap_or_default();
    let (arch, os) = (of("CARGO_CFG_TARGET_ARCH"), of("CARGO_CFG_TARGET_OS"));
    let wanted = match (arch.as_str(), os.as_str()) {
        ("x86_64", "linux") => Some(62),
        ("aarch64", "linux") => Some(183),
        _ => None,
    };
    let found = fs::read(path).ok().and_then(|archive| machine_of(&archive));
    if wanted.is_none() || found != wanted {
        fail(&format!("{} is not for {arch} {os} (bindings/README.md has what another machine takes)", path.display()));
    }
}

/// The archive's full path.
fn archive() -> PathBuf {
    let path = match env::var_os("BADGE_DITHER_LIB") {
        Some(path) => PathBuf::from(path),
        None => PathBuf::from("../../crates/exports/out/libexports.a"),
    };
    path.canonicalize().ok().filter(|full| full.is_file()).unwrap_or_else(|| {
        fail(&format!(
            "there is no archive at {}: run `rt lib` in the repository's crates/exports, \
             or set BADGE_DITHER_LIB to the full path of libexports.a",
            path.display()
        ))
    })
}
