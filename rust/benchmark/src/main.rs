//! The benchmark command: all figures in one run, as nanoseconds and ratios.

use benchmark::drive::{Course, Drive, CROSSING, RATE_BLOCK};
use benchmark::measure::{player, players, shortest, Competitor};
use benchmark::options::Options;
use benchmark::others::{kinds, Kind, Resampler};
use benchmark::page::{figure, ratio, Page};
use benchmark::setting::{Setting, Sizes, LOWER};
use benchmark::table::Table;
use benchmark::{builder, grid, machine};
use std::process::ExitCode;

/// Outputs of one repetition.
const OUTPUTS: usize = 16384;

/// The longest block of a play.
const LONG_BLOCK: usize = 4096;

/// A block of fewer outputs than are made at a time.
const SHORT_BLOCK: usize = 3;

/// How many times more repetitions two drives get whose times should be equal.
const LIMITED_ROUNDS: usize = 5;

/// Calls of one repetition of plays without outputs.
const EMPTY_PLAYS: usize = 1000;

fn main() -> ExitCode {
    let options = match Options::of(std::env::args().skip(1)) {
        Ok(options) => options,
        Err(message) => {
            eprintln!("{message}");
            return ExitCode::FAILURE;
        }
    };
    let kinds = kinds();
    print_machine(page(&options), &kinds);
    if options.grid {
        grid::print(&options);
        return ExitCode::SUCCESS;
    }
    let first = Setting::new(options.sizes);
    let settings =
        [10, 3].map(|decimation| (decimation, of_decimation(&options, &first, decimation)));
    print_steady(&options, &settings, &kinds);
    print_fades(&options, &settings);
    print_limited(&options, &settings);
    print_tests(&options, &first);
    builder::print(&options, &first);
    page(&options).notes(&notes(&options));
    ExitCode::SUCCESS
}

fn page(options: &Options) -> Page {
    Page {
        markdown: options.markdown,
    }
}

/// The asked sizes with another B.
fn of_decimation(options: &Options, setting: &Setting, decimation: usize) -> Setting {
    setting.of_sizes(Sizes {
        decimation,
        ..options.sizes
    })
}

fn print_machine(page: Page, kinds: &[Kind]) {
    page.heading("Machine");
    let mut table = Table::new(&["what", "value"]);
    for (name, value) in machine::state() {
        table.push(vec![name.to_string(), value]);
    }
    for kind in kinds {
        let state = if kind.installed() {
            "installed".to_string()
        } else {
            format!("not installed ({})", kind.package)
        };
        table.push(vec![kind.name.to_string(), state]);
    }
    page.table(&table);
}

/// Another resampler on a drive.
fn other<'a>(
    drive: Drive,
    setting: &'a Setting,
    kind: &'a Kind,
    mut state: Resampler,
) -> Competitor<'a> {
    let mut out = vec![0.0; RATE_BLOCK];
    Competitor {
        name: kind.name,
        work: Box::new(move || drive.resample(&mut state, setting, &mut out) as i64),
    }
}

/// Drives inside an octave, with the other resamplers.
fn print_steady(options: &Options, settings: &[(usize, Setting)], kinds: &[Kind]) {
    page(options).heading("No fades: ns per output, and player / other");
    let mut names = vec!["B, rate, block", "player", "twin", "ratio"];
    for kind in kinds {
        names.extend([kind.name, "ratio"]);
    }
    let mut table = Table::new(&names);
    for (decimation, setting) in settings {
        for rate in [0.75, 1.5, 3.0] {
            for block in [RATE_BLOCK, LONG_BLOCK] {
                let drive = Drive {
                    course: Course::Around(rate),
                    block,
                    outputs: OUTPUTS,
                };
                let mut cells = vec![format!("{decimation}, {rate}, {block}")];
                cells.extend(steady_row(options, drive, setting, kinds));
                table.push(cells);
            }
        }
    }
    page(options).table(&table);
}

fn steady_row(options: &Options, drive: Drive, setting: &Setting, kinds: &[Kind]) -> Vec<String> {
    let mut competitors = players(drive, setting);
    for kind in kinds {
        if let Some(state) = kind.open(f64::from(drive.course.first())) {
            competitors.push(other(drive, setting, kind, state));
        }
    }
    let times = shortest(&mut competitors, options.rounds, OUTPUTS);
    let mut cells = vec![
        figure(times[0]),
        figure(times[1]),
        ratio(times[0], times[1]),
    ];
    for kind in kinds {
        let place = competitors.iter().position(|x| x.name == kind.name);
        match place {
            Some(place) => cells.extend([figure(times[place]), ratio(times[0], times[place])]),
            None => cells.extend(["-".to_string(), "-".to_string()]),
        }
    }
    cells
}

/// Drives that cross an octave.
fn print_fades(options: &Options, settings: &[(usize, Setting)]) {
    page(options).heading("With fades: ns per output");
    let mut table = Table::new(&["B, block", "player", "twin", "ratio"]);
    for (decimation, setting) in settings {
        for block in [RATE_BLOCK, CROSSING, LONG_BLOCK] {
            let drive = Drive {
                course: Course::Between(1.5, 3.0),
                block,
                outputs: OUTPUTS,
            };
            let times = shortest(&mut players(drive, setting), options.rounds, OUTPUTS);
            table.push(vec![
                format!("{decimation}, {block}"),
                figure(times[0]),
                figure(times[1]),
                ratio(times[0], times[1]),
            ]);
        }
    }
    page(options).table(&table);
}

/// A hum at full scale, and the same drive 20 dB lower, twice.
fn print_limited(options: &Options, settings: &[(usize, Setting)]) {
    page(options).heading("Outputs that are limited: ns per output");
    let mut table = Table::new(&[
        "B, block",
        "limited",
        "loud",
        "quiet",
        "loud / quiet",
        "quiet again / quiet",
    ]);
    let single_tap = (0, of_decimation(options, &settings[0].1, 0));
    for (decimation, setting) in settings.iter().chain([&single_tap]) {
        let loud = setting.loud();
        let (quiet, again) = (loud.divided(LOWER), loud.divided(LOWER));
        for block in [SHORT_BLOCK, RATE_BLOCK, LONG_BLOCK] {
            let drive = Drive {
                course: Course::Around(1.5),
                block,
                outputs: LONG_BLOCK,
            };
            let mut cells = vec![format!("{decimation}, {block}")];
            cells.extend(limited_row(options, drive, [&loud, &quiet, &again]));
            table.push(cells);
        }
    }
    page(options).table(&table);
}

fn limited_row(options: &Options, drive: Drive, settings: [&Setting; 3]) -> Vec<String> {
    let [loud, quiet, again] = settings;
    drive.compare(loud);
    drive.compare(quiet);
    assert_eq!(drive.limited(quiet), 0, "quiet outputs are not limited");
    let share = drive.limited(loud) as f64 / drive.outputs as f64;
    let mut competitors = [
        player(drive, loud, "loud"),
        player(drive, quiet, "quiet"),
        player(drive, again, "quiet again"),
    ];
    let times = shortest(
        &mut competitors,
        LIMITED_ROUNDS * options.rounds,
        drive.outputs,
    );
    let fine_ratio = |place: usize| format!("{:.3}", times[place] / times[1]);
    vec![
        format!("{:.0} %", 100.0 * share),
        figure(times[0]),
        figure(times[1]),
        fine_ratio(0),
        fine_ratio(2),
    ]
}

/// Plays without outputs: what the tests of book, store and voice cost.
fn print_tests(options: &Options, first: &Setting) {
    page(options).heading("Tests of book, store and voice: ns per call");
    let per_output = format!("player per output of {RATE_BLOCK}");
    let mut table = Table::new(&[
        "N, M, B",
        "player",
        "twin",
        "ratio",
        &per_output,
        "twin per output",
    ]);
    for sizes in tested_sizes(options.sizes) {
        let Sizes {
            taps,
            phases,
            decimation,
            ..
        } = sizes;
        let mut cells = vec![format!("{taps}, {phases}, {decimation}")];
        cells.extend(tests_row(options, &first.of_sizes(sizes)));
        table.push(cells);
    }
    page(options).table(&table);
}

/// The asked sizes with both B, and the grid's N with the larger M.
fn tested_sizes(asked: Sizes) -> Vec<Sizes> {
    let mut all = [10, 3]
        .map(|decimation| Sizes {
            decimation,
            ..asked
        })
        .to_vec();
    for phases in [64, 128] {
        all.extend(grid::TAPS.map(|taps| Sizes {
            taps,
            phases,
            ..asked
        }));
    }
    let mut seen = Vec::new();
    all.retain(|sizes| {
        let fresh = !seen.contains(sizes);
        seen.push(*sizes);
        fresh
    });
    all
}

fn tests_row(options: &Options, setting: &Setting) -> Vec<String> {
    let drive = Drive {
        course: Course::Around(1.5),
        block: 0,
        outputs: 0,
    };
    let (mut player, mut twin) = (drive.player(), drive.twin());
    let mut competitors = [
        Competitor {
            name: "player",
            work: Box::new(move || empty_plays(&mut player, setting)),
        },
        Competitor {
            name: "twin",
            work: Box::new(move || empty_plays(&mut twin, setting)),
        },
    ];
    let times = shortest(&mut competitors, options.rounds, EMPTY_PLAYS);
    vec![
        figure(times[0]),
        figure(times[1]),
        ratio(times[0], times[1]),
        figure(times[0] / RATE_BLOCK as f64),
        figure(times[1] / RATE_BLOCK as f64),
    ]
}

fn empty_plays(player: &mut impl benchmark::drive::Player, setting: &Setting) -> i64 {
    for _ in 0..EMPTY_PLAYS {
        player.play(setting, &mut []);
    }
    0
}

fn notes(options: &Options) -> Vec<String> {
    let Sizes {
        taps, phases, fade, ..
    } = options.sizes;
    vec![
        format!("N = {taps}, M = {phases}, F = {fade}, mono; the shortest of {} repetitions of {OUTPUTS} outputs, all competitors in turn.", options.rounds),
        format!("Blocks of {RATE_BLOCK}: a jump before each. Blocks of {LONG_BLOCK}: a glide over the block, so that the rate moves at every output."),
        format!("Other resamplers: the rate moves by a call for each {RATE_BLOCK} outputs, whatever the players' block. They work in floats."),
        "zita VResampler: 24 taps at rate 1, its filter made for the drive's middle rate. libsoxr: variable-rate mode, prepared for rates up to the octave's end. libsamplerate: the fastest sinc converter.".to_string(),
        format!("Outputs that are limited: rate 1.5; the loud hum is cut at full scale, the quiet one is the same 20 dB lower; the shortest of {} repetitions of {LONG_BLOCK} outputs.", LIMITED_ROUNDS * options.rounds),
        format!("With fades: glides between 1.5 and 3, one in {CROSSING} outputs or in a block, if that is longer."),
        "Player and twin were compared on every drive here, every sample and voice word, before they were timed.".to_string(),
    ]
}
