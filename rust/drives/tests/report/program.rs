//! The program as a process, and the ways to hand it an input.

use crate::text;
use drives::EDITION;
use renderer::programs::drive_report;
use std::fs::{self, File};
use std::io::{BufRead, BufReader, Seek, Write};
use std::os::fd::OwnedFd;
use std::os::unix::net::UnixDatagram;
use std::path::Path;
use std::process::{self, Child, Command, Stdio};
use std::sync::atomic::{AtomicU64, Ordering};
use std::sync::mpsc::{channel, Receiver};
use std::thread;
use std::time::Duration;

/// Input past this is not read.
pub const LIMIT: usize = 1_048_576;

/// The program reads so many bytes at once, and would lose the rest of a longer
/// datagram.
pub const LARGEST_READ: usize = 4096;

/// Nothing here takes so long unless it never ends.
pub const PATIENCE: Duration = Duration::from_secs(60);

/// What the program must print.
pub fn expected(input: &[u8]) -> String {
    drive_report(EDITION, input)
}

/// The program with this standard input.
pub fn start(input: impl Into<Stdio>) -> Child {
    let path =
        Path::new(env!("CARGO_MANIFEST_DIR")).join("../../crates/drive_report/out/drive_report");
    assert!(
        path.is_file(),
        "{} is missing: run `rt run` in crates/drive_report first",
        path.display()
    );
    let mut command = Command::new(path);
    command.stdin(input).stdout(Stdio::piped());
    command.spawn().expect("the program starts")
}

/// All that the program prints, once it has ended well.
fn finish(program: Child) -> String {
    let output = program.wait_with_output().expect("the program ends");
    assert!(output.status.success(), "the program's {}", output.status);
    String::from_utf8(output.stdout).expect("the program prints ASCII")
}

/// A file without a name, at its start.
fn file_of(input: &[u8]) -> File {
    static FILES: AtomicU64 = AtomicU64::new(0);
    let number = FILES.fetch_add(1, Ordering::Relaxed);
    let name = format!("report-{}-{number}", process::id());
    let path = Path::new(env!("CARGO_TARGET_TMPDIR")).join(name);
    fs::write(&path, input).expect("the input is written");
    let file = File::open(&path).expect("the input is opened");
    fs::remove_file(&path).expect("the input's name is removed");
    file
}

/// What the program prints for a file. Its offset, which is shared with the
/// program, tells what was read: all of it up to the limit, and nothing past that.
pub fn from_file(input: &[u8]) -> String {
    let file = file_of(input);
    let mut shared = file.try_clone().expect("the file is shared");
    let printed = finish(start(file));
    let offset = shared.stream_position().expect("a file has an offset");
    assert_eq!(offset, input.len().min(LIMIT) as u64, "bytes read");
    printed
}

/// What the program prints for a pipe into which each piece is written by itself.
pub fn from_pipe<'a>(mut pieces: impl Iterator<Item = &'a [u8]> + Send) -> String {
    let mut program = start(Stdio::piped());
    let mut pipe = program.stdin.take().expect("a pipe");
    let mut write = move |piece| pipe.write_all(piece).and_then(|()| pipe.flush());
    thread::scope(|scope| {
        // At its limit the program ends, and the pipe with it.
        scope.spawn(move || pieces.try_for_each(&mut write).ok());
        finish(program)
    })
}

/// What the program prints where each piece, none of them empty, is one read: a
/// datagram is handed out by itself, and an empty one is the end.
pub fn from_reads<'a>(pieces: impl Iterator<Item = &'a [u8]> + Send) -> String {
    let (ours, theirs) = UnixDatagram::pair().expect("a pair of sockets");
    let patience = Some(PATIENCE);
    theirs.set_read_timeout(patience).expect("a time limit");
    ours.set_write_timeout(patience).expect("a time limit");
    let program = start(OwnedFd::from(theirs));
    let mut pieces = pieces.chain([&[][..]]);
    let send = move |piece: &[u8]| {
        assert!(piece.len() <= LARGEST_READ);
        ours.send(piece).map(drop)
    };
    thread::scope(|scope| {
        // As in a pipe.
        scope.spawn(move || pieces.try_for_each(send).ok());
        finish(program)
    })
}

/// The lines that a program prints, as they come.
pub fn lines_of(program: &mut Child) -> Receiver<String> {
    let (sender, receiver) = channel();
    let output = program.stdout.take().expect("a pipe");
    thread::spawn(move || {
        for line in BufReader::new(output).lines() {
            // Nobody listens any more once a test has failed.
            let _ = sender.send(line.expect("the program prints ASCII"));
        }
    });
    receiver
}

/// Lines as the text that they are.
pub fn whole(lines: &[String]) -> String {
    lines.join("\n") + "\n"
}

/// Where two texts differ first.
fn difference(printed: &str, expected: &str) -> String {
    // Not `lines`, to which a last line end makes no difference.
    let pairs = printed.split('\n').zip(expected.split('\n'));
    let same = pairs.take_while(|(p, e)| p == e).count();
    let line = |text: &str| format!("{:?}", text.split('\n').nth(same));
    let (found, wanted) = (line(printed), line(expected));
    format!("line {}: expected {wanted}, got {found}", same + 1)
}

/// Holds what was printed to the renderer's text, and that to itself.
pub fn hold(printed: &str, expected: &str, what: &str) {
    assert!(
        printed == expected,
        "{what}: {}",
        difference(printed, expected)
    );
    text::read(printed);
}

/// Hands an input over as a file and holds what is printed. Hands back the text.
pub fn run(input: &[u8], what: &str) -> String {
    let expected = expected(input);
    hold(&from_file(input), &expected, what);
    expected
}
