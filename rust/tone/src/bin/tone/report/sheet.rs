//! The sheet of a drive: one HTML file for a screen or for A4 paper. It needs no
//! other file and no script, and is XML, too.

use std::fmt;
use std::path::Path;

use super::calls::{Calls, Counts, Outcome, Play, Reason, MOST_ROWS};
use super::cost::Cost;
use super::course::Course;
use super::levels::Levels;
use super::markup::{Outputs, Text};
use crate::arguments::Setting;
use crate::drive::Line;
use crate::fades::{fade_points, Fade};
use crate::totals::Totals;

/// The sheet's look, on screen and on paper, in colour and without.
const STYLE: &str = include_str!("sheet.css");

/// No mean where there is no output.
const NOTHING: &str = "\u{2013}";

/// All that a sheet tells of.
pub struct Sheet<'a> {
    /// What was asked for.
    pub setting: &'a Setting,
    /// An accepted book.
    pub book: &'a [i32],
    /// An accepted store.
    pub store: &'a [i32],
    /// What the drive made of them over time.
    pub course: &'a Course,
    /// What became of its lines.
    pub calls: &'a Calls<'a>,
}

impl Sheet<'_> {
    fn files(&self) -> String {
        let Setting {
            book,
            store,
            rate,
            drive,
        } = self.setting;
        let [n, m, a, b, f] = [0, 1, 2, 3, 4].map(|size| self.book[size]);
        let (samples, top) = (self.store[0], self.store[1]);
        let sizes = format!("N {n}, M {m}, A {a}, B {b}, F {f}");
        let lengths = format!("S {samples}, T {top}");
        let name = |path: &Path| {
            let name = path.display().to_string();
            format!("<span class=\"text\">{}</span>", Text(&name))
        };
        fact("Drive", &name(drive))
            + &fact("Book", &format!("{}<br/>{sizes}", name(book)))
            + &fact("Store", &format!("{}<br/>{lengths}", name(store)))
            + &fact("Opening rate", &rate.to_string())
    }

    fn summary(&self) -> String {
        let Counts { plays, refused, .. } = self.calls.all;
        let Totals {
            outputs,
            fades,
            multiplies,
        } = self.course.totals;
        let unended = if self.ends_in_a_fade() {
            "<br/>the last has not ended"
        } else {
            ""
        };
        fact("Accepted plays", &plays.to_string())
            + &fact("Outputs", &outputs.to_string())
            + &fact("Multiplies", &multiplies.to_string())
            + &fact("Multiplies per output", &mean(&self.course.totals))
            + &fact("Fades", &format!("{fades}{unended}"))
            + &fact("Refused lines", &refused.to_string())
    }

    fn ends_in_a_fade(&self) -> bool {
        let ends_later = |fade: &Fade| fade.begin + fade_points(self.book) > self.course.points();
        self.course.fades.last().is_some_and(ends_later)
    }

    /// Both pictures, which need outputs to draw along.
    fn pictures(&self) -> String {
        if self.course.totals.outputs == 0 {
            return "<p>No output was played, so there is nothing to draw.</p>\n".to_owned();
        }
        let (n, b, top) = (self.book[0], self.book[3], self.store[1]);
        let fade_points = fade_points(self.book);
        let least = (4 * n + 2 * b + 1) as u64;
        let means = match self.course.slice_outputs() {
            1 => "output by output".to_owned(),
            outputs => format!("as means over about {outputs} outputs"),
        };
        let levels = Levels::new(self.course, top, fade_points);
        let cost = Cost::new(self.course, least);
        format!(
            "<figure>\n{levels}<figcaption>The current level. It changes where a fade ends; a fade \
             takes F = {fade_points} points, two for each output. Marks that would touch are drawn \
             as one.</figcaption>\n</figure>\n\
             <figure>\n{cost}<figcaption>What the outputs took, {means}. An output takes 4N + 2B + 1 \
             = {least} multiplies, and each point of a fade 2N = {} more.</figcaption>\n</figure>\n",
            2 * n
        )
    }

    fn table(&self) -> String {
        if self.calls.all.lines == 0 {
            return "<p>The drive has no calls.</p>\n".to_owned();
        }
        let rows: String = self.calls.rows.iter().map(row).collect();
        format!(
            "{TABLE_HEAD}<tbody>\n{rows}</tbody>\n</table>\n</div>\n{}",
            self.rest()
        )
    }

    fn rest(&self) -> String {
        match self.calls.more {
            Counts { lines: 0, .. } => String::new(),
            Counts { lines, refused, .. } => format!(
                "<p><strong>{lines} more lines of the drive are not shown here, {refused} of them \
                 refused.</strong> The table ends after {MOST_ROWS} lines; the sums and the \
                 pictures above are of all lines.</p>\n"
            ),
        }
    }
}

impl fmt::Display for Sheet<'_> {
    fn fmt(&self, f: &mut fmt::Formatter<'_>) -> fmt::Result {
        let drive = self.setting.drive.display().to_string();
        write!(
            f,
            "<!DOCTYPE html>\n<html xmlns=\"http://www.w3.org/1999/xhtml\" lang=\"en\">\n<head>\n\
             <meta charset=\"utf-8\"/>\n\
             <meta http-equiv=\"Content-Security-Policy\" \
             content=\"default-src 'none'; style-src 'unsafe-inline'\"/>\n\
             <meta name=\"viewport\" content=\"width=device-width\"/>\n\
             <title>Drive report: {}</title>\n<style>\n{STYLE}</style>\n</head>\n<body>\n\
             <h1>Drive report</h1>\n<div class=\"facts\">\n",
            Text(&drive)
        )?;
        writeln!(f, "<table class=\"read\">\n{}</table>", self.files())?;
        writeln!(f, "<table>\n{}</table>\n</div>", self.summary())?;
        write!(f, "<h2>Levels and fades</h2>\n{}", self.pictures())?;
        write!(f, "<h2>Calls</h2>\n{}</body>\n</html>\n", self.table())
    }
}

/// A row of the facts at the top; the value is markup.
fn fact(name: &str, value: &str) -> String {
    format!("<tr><th scope=\"row\">{name}</th><td>{value}</td></tr>\n")
}

fn mean(totals: &Totals) -> String {
    let text = |mean| format!("{mean:.2}");
    totals.mean().map_or(NOTHING.to_owned(), text)
}

/// The head stands on each page again.
const TABLE_HEAD: &str = "\
<div class=\"table\">
<table class=\"calls\">
<colgroup><col style=\"width:8%\"/><col style=\"width:23%\"/><col style=\"width:7%\"/>\
<col style=\"width:10%\"/><col style=\"width:13%\"/><col style=\"width:9%\"/>\
<col style=\"width:9%\"/><col style=\"width:21%\"/></colgroup>
<thead><tr><th scope=\"col\" class=\"number\">Line</th><th scope=\"col\">Call</th>\
<th scope=\"col\" class=\"number\">Play</th><th scope=\"col\" class=\"number\">Outputs</th>\
<th scope=\"col\" class=\"number\">Multiplies</th><th scope=\"col\" class=\"number\">Per output</th>\
<th scope=\"col\" class=\"number\">Level at end</th><th scope=\"col\">Fades begun, after outputs</th>\
</tr></thead>
";

fn row((line, outcome): &(Line<'_>, Outcome)) -> String {
    let cells = match outcome {
        Outcome::Played(play) => play_cells(play),
        Outcome::Accepted => "<td class=\"accepted\" colspan=\"6\">accepted</td>".to_owned(),
        Outcome::Refused(reason) => refused_cell(reason),
    };
    let (number, text) = (line.number, Text(line.text));
    format!("<tr><td class=\"number\">{number}</td><td class=\"text\">{text}</td>{cells}</tr>\n")
}

fn refused_cell(reason: &Reason) -> String {
    let refused = match reason {
        // A refusal's own text says so, with its number.
        Reason::Call(_) => "",
        Reason::Form(_) => "refused: ",
    };
    let text = reason.to_string();
    let text = Text(&text);
    format!("<td class=\"refused\" colspan=\"6\">\u{d7} {refused}{text}</td>")
}

fn play_cells(play: &Play) -> String {
    let Totals {
        outputs,
        multiplies,
        ..
    } = play.totals;
    let numbers = [
        play.number.to_string(),
        outputs.to_string(),
        multiplies.to_string(),
        mean(&play.totals),
        play.level.to_string(),
    ];
    let cell = |number| format!("<td class=\"number\">{number}</td>");
    let fades: Vec<String> = play.fades.iter().map(fade_text).collect();
    let fades = format!("<td>{}</td>", fades.join("<br/>"));
    numbers.map(cell).concat() + &fades
}

fn fade_text(fade: &Fade) -> String {
    let Fade { begin, old, new } = *fade;
    format!("{old}\u{2192}{new} at {}", Outputs(begin))
}
