//! Files in and out: OUT is there whole, or as it was.

mod common;

use std::os::unix::fs::{FileTypeExt, PermissionsExt, symlink};
use std::process::Stdio;
use std::{fs, io};

use common::{BADGE, Folder, OLD, Ran, left_out, noise, painted, rgb};

/// A folder with a picture, what is drawn of it, and an old OUT.
fn folder() -> Folder {
    let folder = Folder::with(&[("in.pam", noise(1, 4, 4, true)), ("out.pam", OLD.to_vec())]);
    folder.badge("draw in.pam drawn.pam").bytes();
    folder
}

/// The old OUT is there as it was, and else what is named.
#[track_caller]
fn untouched(folder: &Folder, names: &str) {
    assert_eq!((folder.read("out.pam").as_slice(), folder.names().as_str()), (OLD, names));
}

#[test]
fn in_and_out_may_be_the_same() {
    let folder = folder();
    for words in ["draw in.pam in.pam", "quantize --kind off --palette in.pam in.pam in.pam"] {
        folder.badge(words).bytes();
        assert_eq!(folder.read("in.pam"), folder.read("drawn.pam"));
    }
    untouched(&folder, "drawn.pam in.pam out.pam");
}

#[test]
fn a_dash_is_standard_input_and_output() {
    let folder = folder();
    let (input, drawn) = (folder.read("in.pam"), folder.read("drawn.pam"));
    assert_eq!(folder.fed("draw - -", &input).bytes(), drawn);
    assert_eq!(folder.badge("draw in.pam -").bytes(), drawn);
    assert_eq!(folder.fed("draw - out.pam", &input).said(), "out.pam: 4x4, snes, floyd-steinberg\n");
    assert_eq!(folder.read("out.pam"), drawn);
    assert!(folder.fed("gallery - -", &input).bytes().starts_with(b"P7\nWIDTH 1340\n"));
    // A file of that name is another file.
    let ran = folder.fed("quantize --palette - --indices ./- in.pam -", &rgb(1, &[[0; 3]]));
    assert_eq!((ran.bytes().len(), folder.read("-")), (drawn.len(), vec![0; 16]));
}

#[test]
fn a_new_file_takes_the_place_of_the_old_one() {
    let folder = folder();
    // Another name of the old file keeps its bytes: nothing was written into it.
    fs::hard_link(folder.path("out.pam"), folder.path("kept")).unwrap();
    fs::set_permissions(folder.path("out.pam"), fs::Permissions::from_mode(0o640)).unwrap();
    folder.badge("draw in.pam out.pam").bytes();
    assert_eq!((folder.read("out.pam"), folder.read("kept")), (folder.read("drawn.pam"), OLD.to_vec()));
    assert_eq!(fs::metadata(folder.path("out.pam")).unwrap().permissions().mode() & 0o7777, 0o640);
    assert_eq!(folder.names(), "drawn.pam in.pam kept out.pam");
}

#[test]
fn a_link_stays_one_and_its_target_is_replaced() {
    let folder = folder();
    fs::create_dir(folder.path("deep")).unwrap();
    fs::rename(folder.path("out.pam"), folder.path("deep/old.pam")).unwrap();
    symlink("deep/old.pam", folder.path("out.png")).unwrap();
    folder.badge("draw in.pam out.png").bytes();
    assert_eq!(fs::read_link(folder.path("out.png")).unwrap().to_str(), Some("deep/old.pam"));
    assert!(folder.read("deep/old.pam").starts_with(b"\x89PNG"));
    assert_eq!(fs::read_dir(folder.path("deep")).unwrap().count(), 1);
}

#[test]
fn places_where_no_file_can_be() {
    let folder = folder();
    fs::create_dir(folder.path("deep")).unwrap();
    symlink("nowhere", folder.path("lost.pam")).unwrap();
    let missing = ["none/out.pam", "new/", "lost.pam", ""].map(|out| (out, "No such file or directory"));
    let folders = ["deep", "deep/.."].map(|out| (out, "Is a directory"));
    for (out, why) in [&missing[..], &folders, &[("in.pam/out.pam", "Not a directory")]].concat() {
        let (line, indices) =
            (format!("{out}: {why}"), format!("quantize --palette in.pam --indices {out} in.pam out.pam"));
        assert_eq!(folder.badge(&format!("draw in.pam {out}")).one_line(2), line);
        assert_eq!(folder.badge(&indices).one_line(2), line, "neither of two files is written");
        untouched(&folder, "deep drawn.pam in.pam lost.pam out.pam");
    }
    assert_eq!(folder.badge("draw deep out.pam").one_line(2), "deep: Is a directory");
    assert_eq!(folder.badge("draw /dev/zero out.pam").one_line(2), "/dev/zero: more than 64 MiB");
}

#[test]
fn indices_and_out_are_two_files() {
    let folder = folder();
    symlink("out.pam", folder.path("link")).unwrap();
    symlink(".", folder.path("here")).unwrap();
    for (indices, out) in [("out.pam", "out.pam"), ("./new", "new"), ("link", "out.pam"), ("here/new", "new")] {
        let ran = folder.badge(&format!("quantize --palette in.pam --indices {indices} in.pam {out}"));
        assert_eq!(ran.one_line(2), format!("{out} and {indices} are one file"));
    }
    untouched(&folder, "drawn.pam here in.pam link out.pam");
}

#[test]
fn a_pipe_is_written_to_and_stays_one() {
    let folder = folder();
    assert!(folder.command("mkfifo").arg("pipe").status().unwrap().success());
    let reader = folder.command("cat").arg("pipe").stdout(Stdio::piped()).spawn().unwrap();
    folder.badge("draw in.pam pipe").bytes();
    assert_eq!(reader.wait_with_output().unwrap().stdout, folder.read("drawn.pam"));
    assert!(fs::metadata(folder.path("pipe")).unwrap().file_type().is_fifo());
    // A pipe without a name, as a shell's >(..) hands it over.
    let line = r#""$0" draw in.pam /dev/fd/3 3>&1 >said | cat >piped.pam"#;
    assert!(folder.command("sh").args(["-c", line, BADGE]).status().unwrap().success());
    assert_eq!(folder.read("piped.pam"), folder.read("drawn.pam"));
}

#[test]
fn standard_output_that_takes_nothing() {
    let folder = folder();
    for words in ["draw in.pam -", "gallery in.pam -", "compare in.pam in.pam", "info in.pam", "kinds", "--version"] {
        let run =
            |stdout: Stdio| Ran::of(folder.command(BADGE).args(words.split(' ')).stdout(stdout).output().unwrap());
        let full = fs::OpenOptions::new().write(true).open("/dev/full").unwrap();
        assert_eq!(run(full.into()).one_line(2), "standard output: No space left on device", "{words}");
        // A reader that has left needs no line.
        let (reader, writer) = io::pipe().unwrap();
        drop(reader);
        let ran = run(writer.into());
        assert_eq!((ran.status, ran.stderr.as_str()), (Some(2), ""), "{words}");
    }
}

/// Runs a line of shell in which `disk` has a small file system of its own,
/// which is gone afterwards; `$0` is the command. None where none can be had.
fn with_disk(folder: &Folder, line: &str) -> Option<Ran> {
    let mount = "mkdir disk && mount -t tmpfs -o size=16k none disk && touch mounted || exit 9";
    let output = folder.command("unshare").args(["-rm", "sh", "-c", &format!("{mount}; {line}"), BADGE]).output();
    if !folder.path("mounted").exists() {
        left_out("a full disk, a read-only one and devices as OUT: `unshare -rm` and mount give none");
        return None;
    }
    output.ok().map(Ran::of)
}

/// Runs the command where an old file is on `disk`: one line says why it can't
/// be written, and it is there as it was, alone. False where no disk can be had.
fn disk_keeps(folder: &Folder, old: &str, setup: &str, words: &str, line: &str) -> bool {
    folder.write("old", OLD);
    let look = format!("cp disk/{old} after; ls -A disk >names; exit $status");
    let ran = with_disk(folder, &format!("cp old disk/{old}; {setup} \"$0\" {words}; status=$?; {look}"));
    ran.as_ref().inspect(|ran| {
        assert_eq!(ran.one_line(2), line);
        assert_eq!((folder.read("after"), folder.read("names")), (OLD.to_vec(), format!("{old}\n").into()));
    });
    ran.is_some()
}

#[test]
fn a_full_disk_leaves_the_old_files() {
    let large = ("in.pam", painted(256, 256, |_, _| [0; 4]));
    let folder = Folder::with(std::slice::from_ref(&large));
    disk_keeps(&folder, "o", "", "draw in.pam disk/o", "disk/o: No space left on device");
    let folder = Folder::with(&[large, ("out.pam", OLD.to_vec()), ("one.pam", rgb(1, &[[0; 3]]))]);
    let words = "quantize --palette one.pam --indices disk/i in.pam out.pam";
    if disk_keeps(&folder, "i", "", words, "disk/i: No space left on device") {
        untouched(&folder, "after disk in.pam mounted names old one.pam out.pam");
    }
}

#[test]
fn a_folder_that_cannot_be_written_to() {
    for out in ["disk/o", "disk/new"] {
        let (words, line) = (format!("draw in.pam {out}"), format!("{out}: Read-only file system"));
        disk_keeps(&folder(), "o", "mount -o remount,bind,ro disk;", &words, &line);
    }
}

/// The devices are mounted under other names: a command that replaced them
/// would do no harm.
#[test]
fn devices_stay_devices() {
    let folder = folder();
    let line = r#"cd disk; touch null full; mount --bind /dev/null null; mount --bind /dev/full full
        "$0" draw ../in.pam null; "$0" draw ../in.pam full; echo $?
        "$0" quantize --palette ../in.pam --indices full ../in.pam ../out.pam; echo $?; ls; test -c null -a -c full"#;
    let Some(ran) = with_disk(&folder, line) else { return };
    assert_eq!(ran.stdout, b"null: 4x4, snes, floyd-steinberg\n2\n2\nfull\nnull\n", "{ran:?}");
    assert_eq!((ran.status, ran.stderr), (Some(0), "badge: full: No space left on device\n".repeat(2)));
    untouched(&folder, "disk drawn.pam in.pam mounted out.pam");
}
