//! How the figures are printed.

use crate::table::Table;

/// Where the parts of a run are printed: as text or as Markdown.
#[derive(Clone, Copy)]
pub struct Page {
    /// Markdown.
    pub markdown: bool,
}

impl Page {
    /// A heading of a part.
    pub fn heading(self, text: &str) {
        if self.markdown {
            println!("\n### {text}\n");
        } else {
            println!("\n{text}");
        }
    }

    /// A table.
    pub fn table(self, table: &Table) {
        for line in table.lines(self.markdown) {
            println!("{line}");
        }
    }

    /// The notes at a run's end.
    pub fn notes(self, notes: &[String]) {
        self.heading("Notes");
        let item = if self.markdown { "- " } else { "  " };
        for note in notes {
            println!("{item}{note}");
        }
    }
}

/// A figure of nanoseconds.
pub fn figure(time: f64) -> String {
    format!("{time:.1}")
}

/// A ratio of the player's time to another's.
pub fn ratio(player: f64, other: f64) -> String {
    format!("{:.2}", player / other)
}
