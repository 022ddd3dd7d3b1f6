//! The grid: player / twin at many sizes of book and block, without fades and full of
//! them.

use crate::drive::{Course, Drive};
use crate::measure::{players, shortest};
use crate::options::Options;
use crate::page::Page;
use crate::setting::{Setting, Sizes};
use crate::table::Table;

/// N
pub const TAPS: [usize; 5] = [4, 8, 12, 16, 24];
/// M
pub const PHASES: [usize; 4] = [1, 16, 64, 128];
/// Outputs of a play.
pub const BLOCKS: [usize; 3] = [64, 256, 4096];
/// Rates of a drive without fades; a drive full of them comes down to these.
pub const RATES: [f32; 3] = [0.75, 1.5, 3.0];

/// Outputs of one repetition.
const OUTPUTS: usize = 16384;

/// How many times more repetitions a drive gets than in the tables.
const ROUNDS: usize = 2;

/// A place of the grid.
#[derive(Clone, Copy, Debug, PartialEq)]
pub struct Cell {
    /// N
    pub taps: usize,
    /// M
    pub phases: usize,
    /// Outputs of a play.
    pub block: usize,
    /// The drive's rate.
    pub rate: f32,
    /// Full of fades.
    pub fades: bool,
}

impl Cell {
    /// The cells of one table, row by row.
    pub fn all(fades: bool) -> Vec<Cell> {
        let mut cells = Vec::new();
        for taps in TAPS {
            for phases in PHASES {
                for block in BLOCKS {
                    cells.extend(RATES.map(|rate| Cell {
                        taps,
                        phases,
                        block,
                        rate,
                        fades,
                    }));
                }
            }
        }
        cells
    }

    /// The cell's drive and the sizes of its book.
    pub fn drive(&self, outputs: usize) -> (Drive, Sizes) {
        let mut sizes = Sizes {
            taps: self.taps,
            phases: self.phases,
            ..Sizes::default()
        };
        let course = if self.fades {
            let (course, fade) = Course::fades(self.rate, self.block);
            sizes.fade = fade;
            course
        } else {
            Course::Around(self.rate)
        };
        let drive = Drive {
            course,
            block: self.block,
            outputs,
        };
        (drive, sizes)
    }

    /// The player's shortest time over the twin's.
    fn ratio(&self, common: &Setting, rounds: usize) -> f64 {
        let (drive, sizes) = self.drive(OUTPUTS);
        let setting = common.of_sizes(sizes);
        let times = shortest(&mut players(drive, &setting), rounds, OUTPUTS);
        times[0] / times[1]
    }
}

/// A group of cells, of which the largest ratio matters.
struct Group {
    name: String,
    holds: Box<dyn Fn(&Cell) -> bool>,
}

/// The groups: from N = 8 on by block, N = 4, and from N = 8 on full of fades.
fn groups() -> Vec<Group> {
    let mut groups: Vec<Group> = Vec::new();
    for block in BLOCKS {
        groups.push(Group {
            name: format!("N >= 8, no fades, blocks of {block}"),
            holds: Box::new(move |x| x.taps >= 8 && !x.fades && x.block == block),
        });
    }
    for fades in [false, true] {
        groups.push(Group {
            name: format!("N = 4, {}", fades_name(fades)),
            holds: Box::new(move |x| x.taps == 4 && x.fades == fades),
        });
    }
    for block in BLOCKS {
        groups.push(Group {
            name: format!("N >= 8, full of fades, blocks of {block}"),
            holds: Box::new(move |x| x.taps >= 8 && x.fades && x.block == block),
        });
    }
    groups
}

fn fades_name(fades: bool) -> &'static str {
    if fades {
        "full of fades"
    } else {
        "no fades"
    }
}

/// Measures and prints the grid.
pub fn print(options: &Options) {
    let page = Page {
        markdown: options.markdown,
    };
    let common = Setting::new(Sizes::default());
    let mut measured = Vec::new();
    for fades in [false, true] {
        let cells = Cell::all(fades);
        let ratio = |cell: &Cell| (*cell, cell.ratio(&common, ROUNDS * options.rounds));
        let ratios: Vec<(Cell, f64)> = cells.iter().map(ratio).collect();
        page.heading(&format!("Player / twin, {}", fades_name(fades)));
        page.table(&table(&ratios));
        measured.extend(ratios);
    }
    page.heading("The largest of player / twin");
    page.table(&largest(&measured));
    page.notes(&notes(options, &common));
}

/// Ratios by N and M, and by block and rate.
fn table(ratios: &[(Cell, f64)]) -> Table {
    let columns = BLOCKS.len() * RATES.len();
    let mut names = vec!["N, M".to_string()];
    names.extend(
        ratios[..columns]
            .iter()
            .map(|(cell, _)| format!("{}, {}", cell.block, cell.rate)),
    );
    let names: Vec<&str> = names.iter().map(String::as_str).collect();
    let mut table = Table::new(&names);
    for row in ratios.chunks(columns) {
        let (cell, _) = row[0];
        let mut cells = vec![format!("{}, {}", cell.taps, cell.phases)];
        cells.extend(row.iter().map(|(_, ratio)| format!("{ratio:.2}")));
        table.push(cells);
    }
    table
}

/// The largest ratio of each group, and where it is.
fn largest(ratios: &[(Cell, f64)]) -> Table {
    let mut table = Table::new(&["cells", "largest", "N, M, block, rate"]);
    for group in groups() {
        let inside = ratios.iter().filter(|(cell, _)| (group.holds)(cell));
        let most = inside.max_by(|x, y| x.1.total_cmp(&y.1));
        let (cell, ratio) = most.expect("no group is empty");
        table.push(vec![
            group.name,
            format!("{ratio:.2}"),
            format!(
                "{}, {}, {}, {}",
                cell.taps, cell.phases, cell.block, cell.rate
            ),
        ]);
    }
    table
}

/// The shares of outputs inside a fade over the rates, in percent, and F.
fn fade_share(common: &Setting, block: usize) -> (String, usize) {
    let Sizes { taps, phases, .. } = Sizes::default();
    let of_rate = |rate: f32| {
        let cell = Cell {
            taps,
            phases,
            block,
            rate,
            fades: true,
        };
        let (drive, sizes) = cell.drive(OUTPUTS);
        let share = drive.fade_share(&common.of_sizes(sizes));
        (format!("{:.1} %", 100.0 * share), sizes.fade)
    };
    let mut shares = RATES.map(of_rate).to_vec();
    let fade = shares[0].1;
    shares.dedup();
    let shares: Vec<String> = shares.into_iter().map(|(share, _)| share).collect();
    (shares.join(" or "), fade)
}

fn notes(options: &Options, common: &Setting) -> Vec<String> {
    let sizes = Sizes::default();
    let shares = BLOCKS.map(|block| {
        let (share, fade) = fade_share(common, block);
        format!("{share} at blocks of {block} (F = {fade})")
    });
    vec![
        format!("B = {}; columns are block and rate. The shortest of {} repetitions of {OUTPUTS} outputs, player and twin in turn, after both were compared on the drive.", sizes.decimation, ROUNDS * options.rounds),
        "No fades: around the rate, by a jump before each block of 64, else by a glide over the block; F = 64.".to_string(),
        format!("Full of fades, of the outputs inside a fade: {}.", shares.join(", ")),
        "Blocks of 64 and 256, full of fades: a jump just beyond the rate's octave before each block and a glide back to the rate over its first half; each half is one fade.".to_string(),
        "Blocks of 4096 cannot be filled: the rate of a block only falls or only rises, past five levels at most, and a fade has 128 outputs at most. Before each block there is a jump to 31.5 and a glide to the rate over three quarters of the block.".to_string(),
    ]
}
