//! What the tests share: folders of their own, files of all kinds, runs of the
//! command and what they should have come to.

use std::ffi::OsStr;
use std::fs;
use std::io::ErrorKind;
use std::path::PathBuf;
use std::process::{Command, Output};
use std::sync::atomic::{AtomicU32, Ordering};

use tone::{Refusal, Voice};

use crate::places::repository;

/// Book K of document 01.
pub const K: [i32; 11] = [2, 1, 0, 0, 1, 0, 16384, 16384, -16384, 16384, 16384];

/// A folder that is removed at the end.
pub struct Folder {
    pub path: PathBuf,
}

impl Folder {
    pub fn new() -> Folder {
        static COUNT: AtomicU32 = AtomicU32::new(0);
        let count = COUNT.fetch_add(1, Ordering::Relaxed);
        let name = format!("tone-command-{}-{count}", std::process::id());
        let path = std::env::temp_dir().join(name);
        fs::create_dir(&path).unwrap();
        Folder { path }
    }

    pub fn path(&self, name: &str) -> PathBuf {
        self.path.join(name)
    }

    pub fn write(&self, name: &str, bytes: impl AsRef<[u8]>) -> PathBuf {
        let path = self.path(name);
        fs::write(&path, bytes).unwrap();
        path
    }

    pub fn book(&self, words: &[i32]) -> PathBuf {
        self.write("book.txt", text_of(words))
    }

    pub fn recording(&self, samples: &[i16]) -> PathBuf {
        self.write("hum.wav", wav_of(48000, samples))
    }

    /// Names of all files, hidden ones too, in order.
    pub fn names(&self) -> Vec<String> {
        let entries = fs::read_dir(&self.path).unwrap();
        let name = |entry: std::io::Result<fs::DirEntry>| {
            entry.unwrap().file_name().into_string().unwrap()
        };
        let mut names: Vec<String> = entries.map(name).collect();
        names.sort();
        names
    }
}

impl Drop for Folder {
    fn drop(&mut self) {
        let _ = fs::remove_dir_all(&self.path);
    }
}

pub fn run(arguments: &[&OsStr]) -> Output {
    Command::new(env!("CARGO_BIN_EXE_tone"))
        .args(arguments)
        .output()
        .unwrap()
}

/// Runs the command with arguments of different types.
macro_rules! run {
    ($($argument:expr),* $(,)?) => {
        $crate::bench::run(&[$(std::ffi::OsStr::new(&$argument)),*])
    };
}

pub fn text_of(words: &[i32]) -> String {
    words.iter().map(|word| format!("{word}\n")).collect()
}

pub fn words_of(bytes: &[u8]) -> Vec<i32> {
    let words = bytes.chunks_exact(4);
    assert!(words.remainder().is_empty());
    words
        .map(|word| i32::from_le_bytes(word.try_into().unwrap()))
        .collect()
}

/// The store file of these words.
pub fn bytes_of(words: &[i32]) -> Vec<u8> {
    words.iter().flat_map(|word| word.to_le_bytes()).collect()
}

/// A 16-bit mono PCM WAV file, written out by hand.
pub fn wav_of(sample_rate: u32, samples: &[i16]) -> Vec<u8> {
    let data = 2 * samples.len() as u32;
    let mut bytes = b"RIFF".to_vec();
    bytes.extend((data + 36).to_le_bytes());
    bytes.extend(b"WAVEfmt \x10\0\0\0\x01\0\x01\0");
    bytes.extend(sample_rate.to_le_bytes());
    bytes.extend((2 * sample_rate).to_le_bytes());
    bytes.extend(b"\x02\0\x10\0data");
    bytes.extend(data.to_le_bytes());
    bytes.extend(samples.iter().flat_map(|sample| sample.to_le_bytes()));
    bytes
}

/// A store that the library built.
pub fn store_of(book: &[i32], samples: &[i16], top: u32) -> Vec<i32> {
    let mut store = vec![0; tone::store_words(samples.len(), top).unwrap()];
    tone::build(book, samples, top, &mut store).unwrap();
    store
}

/// Some samples that go up and down, with a fixed pattern.
pub fn pattern(count: usize) -> Vec<i16> {
    let sample = |n: usize| ((n * n * 37 + n * 1009) % 20011) as i16 - 10005;
    (0..count).map(sample).collect()
}

pub fn examples() -> PathBuf {
    repository().join("examples")
}

/// The example book's words.
pub fn example_book() -> Vec<i32> {
    let text = fs::read_to_string(examples().join("book/book.txt")).unwrap();
    let lines = text.lines().filter(|line| !line.starts_with('#'));
    lines
        .flat_map(str::split_whitespace)
        .map(|word| word.parse().unwrap())
        .collect()
}

/// Runs a script; none where the machine has no python3, and says so.
pub fn python(arguments: &[&OsStr]) -> Option<Output> {
    match Command::new("python3").arg("-B").args(arguments).output() {
        Err(error) if error.kind() == ErrorKind::NotFound => {
            eprintln!("no python3: the script was not tried");
            None
        }
        output => Some(output.unwrap()),
    }
}

pub fn error_text(output: &Output) -> String {
    String::from_utf8(output.stderr.clone()).unwrap()
}

/// Accepted: status 0 and nothing on standard error. Hands out standard output.
#[track_caller]
pub fn accepted(output: &Output) -> String {
    assert_eq!(error_text(output), "");
    assert_eq!(output.status.code(), Some(0));
    String::from_utf8(output.stdout.clone()).unwrap()
}

/// Refused at a place: status 1, and the number with its meaning.
#[track_caller]
pub fn refused(output: &Output, place: &str, refusal: Refusal) {
    assert_eq!(error_text(output), format!("tone: {place}: {refusal}\n"));
    assert_eq!(output.stdout, b"");
    assert_eq!(output.status.code(), Some(1));
}

/// Not usable: status 2, and a line that has each of these texts.
#[track_caller]
pub fn unusable(output: &Output, texts: &[&str]) {
    let error = error_text(output);
    assert!(
        error.starts_with("tone: ") && error.lines().count() == 1,
        "{error}"
    );
    for text in texts {
        assert!(error.contains(text), "{error}");
    }
    assert_eq!(output.stdout, b"");
    assert_eq!(output.status.code(), Some(2));
}

/// Books that are refused 1 to 7, in this order.
pub fn bad_books() -> Vec<Vec<i32>> {
    let changed = |changes: &[(usize, i32)]| {
        let mut book = K.to_vec();
        changes.iter().for_each(|(at, word)| book[*at] = *word);
        book
    };
    let long = [&K[..], &[0]].concat();
    let first = changed(&[(5, 1), (7, 16383)]);
    let loud = [
        4, 1, 0, 0, 1, 0, 32767, 32767, 32767, 32767, 0, 0, -32767, 16384, 16384,
    ];
    vec![
        K[..4].to_vec(),
        changed(&[(0, 3)]),
        long,
        changed(&[(9, 32768)]),
        first,
        changed(&[(8, -16383)]),
        loud.to_vec(),
    ]
}

/// A folder with a book, a store of its samples and a drive.
pub struct Stage {
    pub folder: Folder,
    pub book: Vec<i32>,
    pub store: Vec<i32>,
}

impl Stage {
    pub fn new(book: &[i32], samples: &[i16], top: u32) -> Stage {
        let folder = Folder::new();
        let store = store_of(book, samples, top);
        folder.book(book);
        folder.write("hum.store", bytes_of(&store));
        Stage {
            folder,
            book: book.to_vec(),
            store,
        }
    }

    /// With book K and top level 1.
    pub fn small() -> Stage {
        Stage::new(&K, &[0, 1000, 2000], 1)
    }

    pub fn play(&self, rate: &str, drive: &str) -> Output {
        let drive = self.folder.write("drive.txt", drive);
        let (book, store) = (self.folder.path("book.txt"), self.folder.path("hum.store"));
        let out = self.folder.path("out.wav");
        run!("play", book, store, "--", rate, drive, out)
    }

    pub fn report(&self, rate: &str, drive: &str) -> Output {
        self.report_with(&[], rate, drive)
    }

    /// A report with options before its arguments.
    pub fn report_with(&self, options: &[&OsStr], rate: &str, drive: &str) -> Output {
        let drive = self.folder.write("drive.txt", drive);
        let (book, store) = (self.folder.path("book.txt"), self.folder.path("hum.store"));
        let operands = [book.as_os_str(), store.as_os_str(), OsStr::new("--")];
        let rest = [OsStr::new(rate), drive.as_os_str()];
        let command = [OsStr::new("report")];
        run(&[&command[..], options, &operands, &rest].concat())
    }

    /// Plays with another store in the file.
    pub fn play_store(&self, store: &[i32], rate: &str, drive: &str) -> Output {
        self.folder.write("hum.store", bytes_of(store));
        self.play(rate, drive)
    }

    pub fn perform(&self, voice: &mut Voice, count: usize) -> Vec<i16> {
        let mut out = vec![0; count];
        voice.play(&self.book, &self.store, &mut out).unwrap();
        out
    }

    pub fn out(&self) -> Vec<u8> {
        fs::read(self.folder.path("out.wav")).unwrap()
    }

    /// The place of a drive's line in a message.
    pub fn line(&self, number: usize) -> String {
        format!("{}:{number}", self.folder.path("drive.txt").display())
    }

    /// The store was refused: status 1, its number with its meaning, a line that
    /// says what to do, and no output.
    #[track_caller]
    pub fn refused_store(&self, output: &Output, refusal: Refusal) {
        let path = self.folder.path("hum.store");
        let path = path.display();
        let lines = format!(
            "tone: {path}: {refusal}\n\
             tone: a store begins with S, T and its level lengths, and has its levels whole: \
             build {path} again with `tone build`\n"
        );
        assert_eq!(error_text(output), lines);
        assert_eq!(output.stdout, b"");
        assert_eq!(output.status.code(), Some(1));
        self.left_nothing();
    }

    /// No output, and nothing under a temporary name.
    #[track_caller]
    pub fn left_nothing(&self) {
        assert_eq!(self.folder.names(), ["book.txt", "drive.txt", "hum.store"]);
    }
}
