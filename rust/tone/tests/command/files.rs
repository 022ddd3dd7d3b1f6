//! The files that are written: whole or not at all, over no input.

use std::ffi::OsStr;
use std::fs;
use std::process::{Command, Stdio};
use std::thread::sleep;
use std::time::{Duration, Instant};

use crate::bench::{
    accepted, bytes_of, error_text, python, text_of, unusable, wav_of, words_of, Folder, Stage, K,
};

#[test]
fn an_input_is_not_overwritten() {
    let stage = Stage::small();
    let folder = &stage.folder;
    let drive = folder.write("drive.txt", "play 3");
    let (book, store) = (folder.path("book.txt"), folder.path("hum.store"));
    let roundabout = folder
        .path
        .join("..")
        .join(folder.path.file_name().unwrap())
        .join("drive.txt");
    for out in [&book, &store, &drive, &roundabout] {
        let output = run!("play", book, store, "1", drive, out);
        unusable(&output, &["one of the inputs"]);
    }
    let recording = folder.recording(&[1, 2, 3]);
    for out in [&book, &recording] {
        unusable(
            &run!("build", book, recording, "0", out),
            &["one of the inputs"],
        );
    }
    assert_eq!(fs::read_to_string(&book).unwrap(), text_of(&K));
    assert_eq!(fs::read(&store).unwrap(), bytes_of(&stage.store));
    assert_eq!(fs::read(&drive).unwrap(), b"play 3");
    assert_eq!(fs::read(&recording).unwrap(), wav_of(48000, &[1, 2, 3]));
    assert_eq!(
        folder.names(),
        ["book.txt", "drive.txt", "hum.store", "hum.wav"]
    );
}

#[test]
fn outputs_that_cannot_be_written() {
    let folder = Folder::new();
    let (book, recording) = (folder.book(&K), folder.recording(&[1, 2, 3]));
    unusable(
        &run!("build", book, recording, "0", folder.path),
        &["not a regular file"],
    );
    let nowhere = folder.path("nowhere/hum.store");
    unusable(
        &run!("build", book, recording, "0", nowhere),
        &["nowhere/hum.store"],
    );
    unusable(
        &run!("build", book, recording, "0", book.join("x")),
        &["book.txt/x"],
    );
    assert_eq!(folder.names(), ["book.txt", "hum.wav"]);
}

#[cfg(unix)]
#[test]
fn links_and_special_files() {
    let folder = Folder::new();
    let (book, recording) = (folder.book(&K), folder.recording(&[1, 2, 3]));
    // what is no regular file is left alone, where a rename would replace it
    let pipe = folder.path("pipe");
    let made = Command::new("mkfifo").arg(&pipe).status().unwrap();
    assert!(made.success());
    let output = run!("build", book, recording, "0", pipe);
    unusable(&output, &["not a regular file"]);
    assert!(!pipe.is_file());
    let link = folder.path("link");
    std::os::unix::fs::symlink(&book, &link).unwrap();
    unusable(
        &run!("build", book, recording, "0", link),
        &["one of the inputs"],
    );
    // through a link to another file that file is written, and the link stays
    let store = folder.write("hum.store", "older");
    fs::remove_file(&link).unwrap();
    std::os::unix::fs::symlink(&store, &link).unwrap();
    accepted(&run!("build", book, recording, "0", link));
    assert!(link.is_symlink());
    let words = [3, 0, 3, 256, 512, 768];
    assert_eq!(words_of(&fs::read(&store).unwrap()), words);
}

/// A signal in the middle of a long drive: the temporary file goes.
#[cfg(unix)]
#[test]
fn an_interrupted_drive_leaves_nothing() {
    for (command, out) in [("play", "out.wav"), ("report", "--html=out.html")] {
        let stage = Stage::small();
        let folder = &stage.folder;
        folder.write("drive.txt", "play 1048576\n".repeat(300));
        let child = Command::new(env!("CARGO_BIN_EXE_tone"))
            .args([command, "book.txt", "hum.store", "1", "drive.txt", out])
            .current_dir(&folder.path)
            .stdout(Stdio::null())
            .stderr(Stdio::piped())
            .spawn()
            .unwrap();
        let begun = Instant::now();
        while folder.names().len() == 3 && begun.elapsed() < Duration::from_secs(30) {
            sleep(Duration::from_millis(2));
        }
        let hidden = folder.names();
        let kill = format!("kill -TERM {}", child.id());
        assert!(Command::new("sh")
            .args(["-c", &kill])
            .status()
            .unwrap()
            .success());
        let output = child.wait_with_output().unwrap();
        assert!(
            hidden.iter().any(|name| name.ends_with(".tmp")),
            "{hidden:?}"
        );
        assert_eq!(error_text(&output), "tone: interrupted\n");
        assert_eq!(output.status.code(), Some(130));
        stage.left_nothing();
    }
}

/// Runs a command on a terminal of its own, and passes on what it shows.
const ON_A_TERMINAL: &str = "\
import os, pty, sys
sys.exit(os.waitstatus_to_exitcode(pty.spawn(sys.argv[1:])))";

#[cfg(unix)]
#[test]
fn progress_is_for_terminals() {
    let stage = Stage::small();
    let folder = &stage.folder;
    let drive = folder.write("drive.txt", "play 10\nplay 20\n");
    let (book, store, out) = (
        folder.path("book.txt"),
        folder.path("hum.store"),
        folder.path("out.wav"),
    );
    let command = env!("CARGO_BIN_EXE_tone");
    let arguments = ["-c", ON_A_TERMINAL, command, "play"].map(OsStr::new);
    let operands = [&book, &store].map(OsStr::new);
    let rest = [OsStr::new("1"), OsStr::new(&drive), OsStr::new(&out)];
    let Some(shown) = python(&[&arguments[..], &operands, &rest].concat()) else {
        return;
    };
    let text = accepted(&shown);
    assert!(text.contains("\r\x1b[Ktone: 1 of 2 calls"), "{text:?}");
    assert!(text.contains("\r\x1b[K30 outputs"), "{text:?}");
    // and none where standard error is a pipe
    assert_eq!(
        accepted(&stage.play("1", "play 10\nplay 20\n")),
        "30 outputs, 0 fades, 270 multiplies, 9.00 per output\n"
    );
}
