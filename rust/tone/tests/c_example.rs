//! The C headers, the C examples and the archives: the headers and examples are
//! compiled as their users would, each example with the archives that it needs
//! and no other, and prints what stands beside it.

mod places;

use places::{archive_dir, repository};
use std::collections::BTreeMap;
use std::env;
use std::fs;
use std::path::{Path, PathBuf};
use std::process::{Command, Output};
use std::sync::atomic::{AtomicU32, Ordering};

const STRICT: [&str; 4] = ["-Wall", "-Wextra", "-Werror", "-pedantic"];
const HEADERS: [&str; 3] = ["tone.h", "tone_builder.h", "tone_numbers.h"];

/// A compiler, a standard and the language's name for `-x`.
type Language = (&'static str, &'static str, &'static str);

const C: Language = ("gcc", "-std=c99", "c");
const CPP: Language = ("g++", "-std=c++98", "c++");

fn compiler((name, standard, language): Language) -> Command {
    let mut command = Command::new(name);
    command.arg(standard).args(STRICT);
    command.arg("-I").arg(repository().join("include"));
    command.args(["-x", language]);
    command
}

fn has_cpp() -> bool {
    let found = Command::new("g++").arg("--version").output().is_ok();
    if !found {
        eprintln!("no g++: C++ was not tried");
    }
    found
}

#[track_caller]
fn succeeded(command: &mut Command) -> Output {
    let output = command.output().unwrap();
    let errors = String::from_utf8_lossy(&output.stderr);
    assert!(output.status.success(), "{command:?}\n{errors}");
    output
}

/// A folder that is removed at the end.
struct Folder(PathBuf);

impl Folder {
    fn new() -> Folder {
        static COUNT: AtomicU32 = AtomicU32::new(0);
        let count = COUNT.fetch_add(1, Ordering::Relaxed);
        let name = format!("tone-c-example-{}-{count}", std::process::id());
        let path = env::temp_dir().join(name);
        fs::create_dir(&path).unwrap();
        Folder(path)
    }
}

impl Drop for Folder {
    fn drop(&mut self) {
        let _ = fs::remove_dir_all(&self.0);
    }
}

/// The command that compiles an example and links it with some archives.
fn linking(language: Language, example: &str, archives: &[&str], program: &Path) -> Command {
    let mut compile = compiler(language);
    compile.arg(repository().join(format!("examples/c/{example}.c")));
    compile.args(["-x", "none", "-L"]).arg(archive_dir());
    compile.args(archives.iter().map(|name| format!("-l{name}")));
    compile.arg("-o").arg(program);
    compile
}

/// Compiles an example, runs it and compares what it prints.
#[track_caller]
fn prints_what_it_should(language: Language, example: &str, archives: &[&str]) {
    let folder = Folder::new();
    let program = folder.0.join(example);
    succeeded(&mut linking(language, example, archives, &program));
    let printed = succeeded(&mut Command::new(&program)).stdout;
    let expected = repository().join(format!("examples/c/{example}.txt"));
    let expected = fs::read_to_string(expected).unwrap();
    assert_eq!(String::from_utf8(printed).unwrap(), expected);
}

/// Every example, with exactly the archives that it needs.
fn examples_in(language: Language) {
    prints_what_it_should(language, "studio", &["tone_builder"]);
    prints_what_it_should(language, "unit", &["tone"]);
    prints_what_it_should(language, "bench_cases", &["tone_builder", "tone"]);
    prints_what_it_should(language, "bench_cases", &["tone", "tone_builder"]);
}

#[test]
fn the_examples_in_c() {
    examples_in(C);
}

#[test]
fn the_examples_in_cpp() {
    if has_cpp() {
        examples_in(CPP);
    }
}

/// The stores that the unit plays are those that the studio prints.
#[test]
fn the_unit_has_the_studio_s_stores() {
    let read = |name: &str| fs::read_to_string(repository().join("examples/c").join(name)).unwrap();
    let (studio, unit) = (read("studio.txt"), read("unit.c"));
    for (letter, array) in [("B", "store_b[]"), ("C", "store_c[]")] {
        let mut lines = studio.lines();
        let words = lines.find_map(|line| line.strip_prefix(letter)?.strip_prefix(' '));
        let words = words.unwrap().replace(' ', ", ");
        let constant = format!("static const int32_t {array} = {{{words}}};");
        assert!(unit.contains(&constant), "{constant}");
    }
}

#[track_caller]
fn does_not_link(example: &str, archive: &str, missing: &str) {
    let folder = Folder::new();
    let output = linking(C, example, &[archive], &folder.0.join(example)).output();
    let output = output.unwrap();
    let errors = String::from_utf8_lossy(&output.stderr);
    assert!(
        !output.status.success() && errors.contains(missing),
        "{errors}"
    );
}

#[test]
fn an_example_needs_its_archive() {
    does_not_link("studio", "tone", "tone_build");
    does_not_link("unit", "tone_builder", "tone_play");
    does_not_link("bench_cases", "tone", "tone_check");
    does_not_link("bench_cases", "tone_builder", "tone_open");
}

/// The symbols of an archive, each with the letter that `nm` gives it.
fn symbols(archive: &str) -> Vec<(String, String)> {
    let mut nm = Command::new("nm");
    nm.arg("-P")
        .arg(archive_dir().join(format!("lib{archive}.a")));
    let listed = String::from_utf8(succeeded(&mut nm).stdout).unwrap();
    let symbol = |line: &str| {
        let mut parts = line.split(' ');
        Some((parts.next()?.to_owned(), parts.next()?.to_owned()))
    };
    listed.lines().filter_map(symbol).collect()
}

/// What an archive defines for others to link, and what it needs of others.
fn exported_and_needed(archive: &str) -> (Vec<String>, Vec<String>) {
    let symbols = symbols(archive);
    let named = |is: fn(&str) -> bool| {
        let chosen = symbols.iter().filter(|(_, letter)| is(letter));
        let mut names: Vec<String> = chosen.map(|(name, _)| name.clone()).collect();
        names.sort();
        names
    };
    let global = |letter: &str| letter != "U" && letter.chars().all(char::is_uppercase);
    (named(global), named(|letter| letter == "U"))
}

#[test]
fn each_archive_exports_its_half_and_needs_no_other() {
    let (builder, builder_needs) = exported_and_needed("tone_builder");
    let (player, player_needs) = exported_and_needed("tone");
    assert_eq!(
        builder,
        [
            "tone_build",
            "tone_check",
            "tone_store_words",
            "tone_test_hum"
        ]
    );
    assert_eq!(
        player,
        [
            "tone_check_store",
            "tone_glide",
            "tone_jump",
            "tone_open",
            "tone_play",
            "tone_seek"
        ]
    );
    // of the C library at most what copies and fills
    for name in builder_needs.iter().chain(&player_needs) {
        assert!(
            ["memcpy", "memmove", "memset"].contains(&&name[..]),
            "{name}"
        );
    }
}

/// Nothing of the player is inside the builder's archive, and no builder inside
/// the player's: functions keep their crates' names there.
#[test]
fn no_archive_holds_the_other_s_code() {
    let holds = |archive: &str, part: &str| {
        let symbols = symbols(archive);
        symbols.iter().any(|(name, _)| name.contains(part))
    };
    assert!(holds("tone_builder", "pair_sums::") && holds("tone", "windows::"));
    for part in [
        "player::",
        "points::",
        "values::",
        "rows::",
        "dot_products::",
        "windows::",
        "control::",
        "marshal::",
    ] {
        assert!(!holds("tone_builder", part), "{part}");
    }
    for part in ["octave::", "pair_sums::", "levels::store"] {
        assert!(!holds("tone", part), "{part}");
    }
}

#[test]
fn the_headers_are_c_by_themselves() {
    for standard in ["-std=c99", "-std=c11"] {
        for header in HEADERS {
            let mut compile = compiler(("gcc", standard, "c"));
            let header = repository().join("include").join(header);
            succeeded(compile.arg("-fsyntax-only").arg(&header));
        }
    }
}

#[test]
fn the_headers_are_cpp_by_themselves() {
    for standard in ["-std=c++98", "-std=c++17"] {
        for header in HEADERS {
            if has_cpp() {
                let mut compile = compiler(("g++", standard, "c++"));
                let header = repository().join("include").join(header);
                succeeded(compile.arg("-fsyntax-only").arg(&header));
            }
        }
    }
}

/// Both headers in one file, in either order, and twice.
#[test]
fn the_headers_go_together() {
    let folder = Folder::new();
    for (at, order) in [[0, 1, 0], [1, 0, 1]].iter().enumerate() {
        let lines = order.map(|header| format!("#include \"{}\"\n", HEADERS[header]));
        let use_both = "int both(void);\nint both(void) { return TONE_VOICE_WORDS; }\n";
        let file = folder.0.join(format!("both{at}.c"));
        fs::write(&file, lines.concat() + use_both).unwrap();
        succeeded(compiler(C).arg("-fsyntax-only").arg(&file));
        if has_cpp() {
            succeeded(compiler(CPP).arg("-fsyntax-only").arg(&file));
        }
    }
}

/// The headers' constants are the library's.
#[test]
fn the_headers_and_the_library_agree() {
    let read = |name: &str| fs::read_to_string(repository().join("include").join(name)).unwrap();
    let headers = HEADERS.map(read).concat();
    let constant = |name: &str| -> usize {
        let mut lines = headers
            .lines()
            .filter_map(|line| line.strip_prefix("#define "));
        let value = lines.find_map(|line| line.strip_prefix(name)?.strip_prefix(' '));
        let value = value.and_then(|value| value.split_whitespace().next());
        value.unwrap().parse().unwrap()
    };
    assert_eq!(constant("TONE_VOICE_WORDS"), tone::VOICE_WORDS);
    assert_eq!(constant("TONE_MOST_SAMPLES"), tone::MOST_SAMPLES);
    assert_eq!(constant("TONE_MOST_TOP"), tone::MOST_TOP as usize);
    assert_eq!(constant("TONE_MOST_OUTPUTS"), tone::MOST_OUTPUTS);
    assert_eq!(constant("TONE_MOST_GLIDE"), tone::MOST_GLIDE as usize);
    let largest = tone::store_words(tone::MOST_SAMPLES, tone::MOST_TOP);
    assert_eq!(Some(constant("TONE_MOST_STORE_WORDS")), largest);
}

/// The names and values of an enumeration of the header that both share.
fn enumeration(name: &str) -> BTreeMap<String, usize> {
    let header = fs::read_to_string(repository().join("include/tone_numbers.h")).unwrap();
    let (_, rest) = header.split_once(&format!("enum {name} {{")).unwrap();
    let (body, _) = rest.split_once("};").unwrap();
    let entries = body.lines().filter_map(|line| line.split_once(" = "));
    let entry = |(name, value): (&str, &str)| {
        let digits = value.split(|letter: char| !letter.is_ascii_digit());
        let value = digits.take(1).collect::<String>();
        (name.trim().to_owned(), value.parse().unwrap())
    };
    entries.map(entry).collect()
}

#[test]
fn the_headers_name_every_number() {
    let mut numbers: Vec<usize> = enumeration("tone_number").into_values().collect();
    numbers.sort();
    let voice_length = tone::VOICE_LENGTH as usize;
    assert_eq!(numbers, Vec::from_iter((0..=19).chain([voice_length])));
}

/// The names of a store's header words are where the builder writes them.
#[test]
fn the_headers_name_the_words_of_a_store() {
    let book = [2, 1, 0, 0, 1, 0, 16384, 16384, -16384, 16384, 16384];
    let mut store = vec![0; tone::store_words(5, 2).unwrap()];
    tone::build(&book, &[7; 5], 2, &mut store).unwrap();
    let words = enumeration("tone_store_word");
    let at = |name: &str| words[&format!("TONE_STORE_WORD_{name}")];
    assert_eq!(store[at("SAMPLES")], 5);
    assert_eq!(store[at("TOP")], 2);
    assert_eq!(store[at("LENGTHS")..][..3], [5, 3, 2]);
    assert_eq!(words.len(), 3);
}
