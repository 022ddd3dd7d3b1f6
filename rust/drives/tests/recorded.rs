//! The programs `recorded_drives`, `level_facts`, `player_facts`, `test_drive` and
//! `drive_report`: the drives of the first and the expected outputs of all are the
//! renderer's, and they show what they were chosen for.

use drives::call::{lent, Call};
use drives::facts;
use drives::rattle::{self, SEEDS};
use drives::recorded::{small_drive, Answered, SmallDrive};
use drives::EDITION;
use renderer::voice::{asked_level, open, plain_asked_level, Card, Lent, Voice};
use std::collections::BTreeSet;
use std::fs;
use std::path::{Path, PathBuf};

fn programs() -> PathBuf {
    Path::new(env!("CARGO_MANIFEST_DIR")).join("../../crates")
}

/// Holds the files of a folder to what `recorded` writes into it with an option.
fn hold(folder: &Path, files: Vec<(String, String)>, option: &str) {
    for (path, text) in files {
        let found = fs::read_to_string(folder.join(&path));
        let found = found.unwrap_or_else(|error| panic!("{path}: {error}"));
        assert!(found == text, "{path}: run `recorded {option}` again");
    }
}

#[test]
fn files_are_the_renderers() {
    let drives = programs().join("recorded_drives");
    hold(&drives, rattle::files(&SEEDS), "--rattle");
    hold(&programs(), facts::files(), "--facts");
}

/// Every module of a drive is one of the seeds', and the program prints each.
#[test]
fn no_other_drives() {
    let folder = programs().join("recorded_drives/src");
    let main = fs::read_to_string(folder.join("main.rt")).unwrap();
    let files = fs::read_dir(&folder).unwrap();
    let modules: BTreeSet<String> = files
        .map(|entry| entry.unwrap().file_name().into_string().unwrap())
        .filter(|name| name.starts_with("drive_"))
        .collect();
    let expected = SEEDS.map(|seed| format!("drive_{seed}.rt"));
    assert_eq!(modules, BTreeSet::from(expected));
    let call = "::text(&mut out)?;";
    let printed: Vec<&str> = main.lines().filter(|l| l.ends_with(call)).collect();
    let expected = SEEDS.map(|seed| format!("    drive_{seed}{call}"));
    assert_eq!(printed, expected);
}

type Seen = BTreeSet<String>;

/// Whether a level is held by its band, or has just been left below its end.
fn see_band(seen: &mut Seen, voice: &Voice) {
    if voice.level == 0 {
        return;
    }
    let below = (15i64 << (23 + voice.level)) - voice.rate as i64;
    let held = voice.fade == 0 && plain_asked_level(EDITION, voice.rate) < voice.level;
    if held {
        seen.insert("level held".to_string());
    }
    if held && below == 0 {
        seen.insert("level held at its band's end".to_string());
    }
    if voice.next_level < voice.level && (1..256).contains(&below) {
        seen.insert("level left just below it".to_string());
    }
}

/// What stands in a voice between two outputs.
fn see_voice(seen: &mut Seen, voice: &Voice) {
    if voice.fade > 0 {
        let (old, new) = (voice.level, voice.next_level);
        seen.insert(format!("fade {old} to {new}"));
        if asked_level(EDITION, new, voice.rate) != new {
            seen.insert("rate change inside a fade".to_string());
        }
    }
    see_band(seen, voice);
    if voice.glide_done > 0 {
        seen.insert("glide".to_string());
    }
    if voice.position == 1 << 60 {
        seen.insert("position 2^60".to_string());
    }
}

/// Plays one output after another, and sees every voice on the way.
fn see_play(seen: &mut Seen, voice: &mut Voice, lent: &Lent, count: usize) {
    for _ in 0..count {
        let gliding = voice.glide_count > 0;
        *voice = Call::Play(1).rendered(voice, lent, &mut [0]).voice;
        if gliding && voice.glide_count == 0 {
            seen.insert("glide that ends".to_string());
        }
        see_voice(seen, voice);
    }
}

fn see_answer(seen: &mut Seen, answered: &Answered) {
    let name = answered.call.kind().name();
    let number = answered.number;
    seen.insert(format!("{name}: {number}"));
    for limit in [i16::MIN, i16::MAX] {
        if answered.out.contains(&limit) {
            seen.insert(format!("output {limit}"));
        }
    }
    match answered.call {
        Call::Play(0) => seen.insert("play of no outputs".to_string()),
        Call::Jump(rate) if rate.is_nan() => seen.insert(format!("jump to NaN: {number}")),
        _ => false,
    };
}

fn see_drive(seen: &mut Seen, drive: &SmallDrive) {
    let top = drive.setting.top;
    let lent = lent(&drive.setting.book, &drive.store);
    let rate = drive.rate;
    let (number, mut voice) = open(EDITION, Card { rate, top });
    seen.insert(format!("open: {number}"));
    if number == 0 {
        let (n, m) = (drive.setting.book[0], drive.setting.book[1]);
        seen.extend([format!("T {top}"), format!("N {n}"), format!("M {m}")]);
    }
    for answered in &drive.calls {
        see_answer(seen, answered);
        match answered.call {
            Call::Play(count) => see_play(seen, &mut voice, &lent, count),
            other => voice = other.rendered(&voice, &lent, &mut []).voice,
        }
    }
    if voice.fade > 0 {
        seen.insert("fade at the end".to_string());
    }
}

const EXPECTED: &str = "T 0, T 1, T 2, T 3, N 2, N 4, M 1, M 2, M 4, \
    fade 0 to 1, fade 0 to 2, fade 0 to 3, fade 1 to 2, \
    fade 1 to 0, fade 2 to 0, fade 2 to 1, fade 3 to 0, fade 3 to 2, \
    level held, level held at its band's end, level left just below it, \
    rate change inside a fade, fade at the end, glide, glide that ends, \
    position 2^60, output -32768, output 32767, \
    open: 0, jump: 0, glide: 0, seek: 0, play: 0, play of no outputs, \
    open: 10, jump: 10, jump to NaN: 10, glide: 10, glide: 11, seek: 12, \
    jump: 15, glide: 15, seek: 15, play: 15, play: 19";

#[test]
fn the_drives_show_much() {
    let mut seen = Seen::new();
    for seed in SEEDS {
        see_drive(&mut seen, &small_drive(seed));
    }
    for what in EXPECTED.split(", ") {
        assert!(seen.contains(what), "not seen: {what}");
    }
}
