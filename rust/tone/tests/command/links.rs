//! Outputs whose path leads elsewhere: to links, pipes, devices and folders. What is
//! refused leaves all as it was.

use std::fs::{self, File, FileType};
use std::os::unix::fs::symlink;
use std::os::unix::net::UnixListener;
use std::path::{Path, PathBuf};
use std::process::{Child, Command, Output, Stdio};
use std::thread::sleep;
use std::time::{Duration, Instant};

use crate::bench::{accepted, error_text, unusable, wav_of, words_of, Folder, Stage};

/// The commands that write a file.
const WRITERS: [&str; 4] = ["build", "play", "report", "hum"];

/// What a name in a folder stands for.
#[derive(Debug, PartialEq)]
enum Entry {
    File(Vec<u8>),
    Link(PathBuf),
    Folder(usize),
    Special(FileType),
}

/// A folder with all inputs.
fn stage() -> Stage {
    let stage = Stage::small();
    stage.folder.write("drive.txt", "play 3");
    stage.folder.recording(&[1, 2, 3]);
    stage
}

impl Stage {
    /// A command that writes to a path.
    fn writer(&self, name: &str, out: &Path) -> Command {
        let mut command = Command::new(env!("CARGO_BIN_EXE_tone"));
        command.current_dir(&self.folder.path).arg(name);
        match name {
            "build" => command.args(["book.txt", "hum.wav", "0"]).arg(out),
            "hum" => command.arg("3").arg(out),
            _ => {
                command.args(["book.txt", "hum.store", "1", "drive.txt"]);
                if name == "report" {
                    command.arg("--html");
                }
                command.arg(out)
            }
        };
        command
    }

    fn write(&self, name: &str, out: &Path) -> Output {
        self.writer(name, out).output().unwrap()
    }

    fn link(&self, to: impl AsRef<Path>, name: &str) -> PathBuf {
        let path = self.folder.path(name);
        symlink(to, &path).unwrap();
        path
    }

    /// All that the folder has.
    fn entries(&self) -> Vec<(String, Entry)> {
        let entry = |name: String| {
            let path = self.folder.path(&name);
            let kind = fs::symlink_metadata(&path).unwrap().file_type();
            let entry = match kind {
                _ if kind.is_file() => Entry::File(fs::read(&path).unwrap()),
                _ if kind.is_symlink() => Entry::Link(fs::read_link(&path).unwrap()),
                _ if kind.is_dir() => Entry::Folder(fs::read_dir(&path).unwrap().count()),
                _ => Entry::Special(kind),
            };
            (name, entry)
        };
        self.folder.names().into_iter().map(entry).collect()
    }

    /// Every writer refuses the path, with a line that has these texts, and changes
    /// nothing.
    #[track_caller]
    fn all_refuse(&self, out: &Path, texts: &[&str]) {
        let before = self.entries();
        for name in WRITERS {
            unusable(&self.write(name, out), texts);
            assert_eq!(self.entries(), before, "{name} {}", out.display());
        }
    }
}

/// A device of the folder's own where one may be made, so that a command that replaced
/// it would harm nothing else; /dev/null where not.
fn device(folder: &Folder) -> PathBuf {
    let path = folder.path("device");
    let mut mknod = Command::new("mknod");
    mknod.arg(&path).args(["c", "1", "3"]);
    match mknod.output() {
        Ok(output) if output.status.success() => path,
        _ => PathBuf::from("/dev/null"),
    }
}

fn pipe(folder: &Folder) -> PathBuf {
    let path = folder.path("pipe");
    let made = Command::new("mkfifo").arg(&path).status().unwrap();
    assert!(made.success());
    path
}

#[test]
fn only_regular_files_are_replaced() {
    let stage = stage();
    let folder = &stage.folder;
    let inner = folder.path("inner");
    fs::create_dir(&inner).unwrap();
    let socket = folder.path("socket");
    let _listener = UnixListener::bind(&socket).unwrap();
    for end in [pipe(folder), device(folder), socket, inner] {
        let name = end.file_name().unwrap().to_str().unwrap();
        let link = stage.link(&end, &format!("{name}-link"));
        let chain = stage.link(link.file_name().unwrap(), &format!("{name}-chain"));
        for out in [&end, &link, &chain] {
            stage.all_refuse(out, &[out.to_str().unwrap(), "not a regular file"]);
        }
    }
    // a folder by its dots, and as a name with a slash
    for out in [".", "inner/..", "inner/", "inner-link/"] {
        stage.all_refuse(Path::new(out), &["not a regular file"]);
    }
}

#[test]
fn links_that_lead_nowhere() {
    let stage = stage();
    let link = stage.link("missing", "link");
    let chain = stage.link("link", "chain");
    let far = stage.link("missing/out.wav", "far");
    for out in [link, chain, far] {
        stage.all_refuse(&out, &[out.to_str().unwrap(), "a link that leads nowhere"]);
    }
    stage.link("round", "about");
    let round = stage.link("about", "round");
    stage.all_refuse(&round, &[round.to_str().unwrap()]);
    for out in ["link/", "new/", "new/.", "new/..", ""] {
        stage.all_refuse(Path::new(out), &["no name for a file"]);
    }
    stage.all_refuse(Path::new("link/out.wav"), &["link/out.wav"]);
}

/// As /dev/stdout in `tone play .. | ..`, which was once replaced.
#[cfg(target_os = "linux")]
#[test]
fn standard_output_is_no_file() {
    let stage = stage();
    let link = stage.link("/proc/self/fd/1", "stdout");
    let chain = stage.link("stdout", "chain");
    for out in [link, chain] {
        stage.all_refuse(&out, &[out.to_str().unwrap(), "not a regular file"]);
    }
}

/// Where standard output is a file, a link to it leads there.
#[cfg(target_os = "linux")]
#[test]
fn standard_output_in_a_file() {
    let stage = stage();
    let link = stage.link("/proc/self/fd/1", "stdout");
    let path = stage.folder.path("out.wav");
    let file = File::create(&path).unwrap();
    accepted(&stage.writer("hum", &link).stdout(file).output().unwrap());
    assert_eq!(fs::read(&path).unwrap().len(), 44 + 6);
    assert_eq!(fs::read_link(&link).unwrap(), Path::new("/proc/self/fd/1"));
}

/// The link to a file that was removed still says a name, which may be another's.
#[cfg(target_os = "linux")]
#[test]
fn standard_output_in_a_removed_file() {
    let stage = stage();
    let link = stage.link("/proc/self/fd/1", "stdout");
    for other in [false, true] {
        let path = stage.folder.path("out.wav");
        let file = File::create(&path).unwrap();
        fs::remove_file(path).unwrap();
        if other {
            stage.folder.write("out.wav (deleted)", "another");
        }
        let before = stage.entries();
        let output = stage.writer("hum", &link).stdout(file).output().unwrap();
        unusable(&output, &[link.to_str().unwrap(), "a file without a name"]);
        assert_eq!(stage.entries(), before);
    }
}

/// Through links the file at their end is written, and they stay.
#[test]
fn links_to_a_regular_file() {
    let stage = stage();
    let folder = &stage.folder;
    fs::create_dir(folder.path("inner")).unwrap();
    stage.link("inner", "folder");
    let end = folder.path("inner/file");
    stage.link("folder/file", "link");
    let chain = stage.link(folder.path("link"), "chain");
    for name in WRITERS {
        fs::write(&end, "older").unwrap();
        let before = stage.entries();
        accepted(&stage.write(name, &chain));
        assert_eq!(stage.entries(), before, "{name}");
        let bytes = fs::read(&end).unwrap();
        match name {
            "build" => assert_eq!(words_of(&bytes), [3, 0, 3, 256, 512, 768]),
            "play" => assert_eq!(bytes, wav_of(48000, &[500, 1500, 1000])),
            "report" => assert!(bytes.starts_with(b"<!DOCTYPE html>")),
            _ => assert_eq!(bytes.len(), 44 + 6),
        }
    }
    // a new file in a folder that a link leads to
    fs::remove_file(&end).unwrap();
    accepted(&stage.write("hum", &folder.path("folder/file")));
    assert_eq!(fs::read(&end).unwrap().len(), 44 + 6);
}

#[test]
fn an_input_through_links_is_not_overwritten() {
    let stage = stage();
    let inputs = [
        ("build", &["book.txt", "hum.wav"][..]),
        ("play", &["book.txt", "hum.store", "drive.txt"]),
        ("report", &["book.txt", "hum.store", "drive.txt"]),
    ];
    for (name, inputs) in inputs {
        for input in inputs {
            let link = stage.link(input, "link");
            let chain = stage.link("link", "chain");
            let before = stage.entries();
            for out in [&link, &chain] {
                unusable(&stage.write(name, out), &["one of the inputs"]);
                assert_eq!(stage.entries(), before, "{name} {input}");
            }
            fs::remove_file(link).unwrap();
            fs::remove_file(chain).unwrap();
        }
    }
}

/// A report that has begun its sheet, and goes on once its lines are read: they are
/// more than a pipe holds.
fn begun_report(stage: &Stage) -> Child {
    stage.folder.write("drive.txt", "play 1\n".repeat(40_000));
    let mut command = stage.writer("report", Path::new("out.html"));
    command.stdout(Stdio::piped()).stderr(Stdio::piped());
    let child = command.spawn().unwrap();
    let begun = Instant::now();
    let is_hidden = |name: &String| name.ends_with(".tmp");
    while !stage.folder.names().iter().any(is_hidden) {
        assert!(begun.elapsed() < Duration::from_secs(30));
        sleep(Duration::from_millis(2));
    }
    child
}

/// The name is looked at again at the end: what came there meanwhile stays.
#[test]
fn what_came_meanwhile_is_left() {
    type Change = fn(&Stage);
    let by_a_file: Change = |stage| {
        let other = stage.folder.write("other", "another");
        fs::rename(other, stage.folder.path("out.html")).unwrap();
    };
    let by_a_link: Change = |stage| {
        let other = stage.link("book.txt", "other");
        fs::rename(other, stage.folder.path("out.html")).unwrap();
    };
    let by_a_pipe: Change = |stage| {
        fs::rename(pipe(&stage.folder), stage.folder.path("out.html")).unwrap();
    };
    let away: Change = |stage| fs::remove_file(stage.folder.path("out.html")).unwrap();
    let changes = [
        (false, by_a_file),
        (false, by_a_link),
        (false, by_a_pipe),
        (true, by_a_file),
        (true, by_a_link),
        (true, by_a_pipe),
        (true, away),
    ];
    for (index, (older, change)) in changes.into_iter().enumerate() {
        let stage = stage();
        if older {
            stage.folder.write("out.html", "older");
        }
        let child = begun_report(&stage);
        change(&stage);
        let is_hidden = |(name, _): &(String, Entry)| name.ends_with(".tmp");
        let mut expected = stage.entries();
        expected.retain(|entry| !is_hidden(entry));
        let output = child.wait_with_output().unwrap();
        assert_eq!(output.status.code(), Some(2), "{index}");
        assert!(error_text(&output).starts_with("tone: out.html: "));
        assert_eq!(stage.entries(), expected, "{index}");
    }
}

/// A file that is written to meanwhile, and is the same, is replaced.
#[test]
fn the_same_file_is_replaced() {
    let stage = stage();
    let out = stage.folder.write("out.html", "older");
    let child = begun_report(&stage);
    fs::write(&out, "old").unwrap();
    accepted(&child.wait_with_output().unwrap());
    assert!(fs::read(&out).unwrap().starts_with(b"<!DOCTYPE html>"));
}
