//! Tables, as aligned text or as Markdown.

/// A table of text cells.
pub struct Table {
    rows: Vec<Vec<String>>,
}

impl Table {
    /// A table with its column names.
    pub fn new(names: &[&str]) -> Table {
        Table {
            rows: vec![names.iter().map(|name| name.to_string()).collect()],
        }
    }

    /// Adds a row of as many cells as there are names.
    pub fn push(&mut self, cells: Vec<String>) {
        self.rows.push(cells);
    }

    /// The table's lines.
    pub fn lines(&self, markdown: bool) -> Vec<String> {
        let columns = self.rows[0].len();
        let width = |column: usize| self.rows.iter().map(|row| row[column].len()).max();
        let widths: Vec<usize> = (0..columns).map(|c| width(c).unwrap_or(0)).collect();
        let mut lines: Vec<String> = self
            .rows
            .iter()
            .map(|row| line(row, &widths, markdown))
            .collect();
        if markdown {
            let rule = widths.iter().enumerate().map(|(column, width)| {
                let dashes = "-".repeat(*width + 1);
                if column == 0 {
                    format!("{dashes}-")
                } else {
                    format!("{dashes}:")
                }
            });
            lines.insert(1, format!("|{}|", rule.collect::<Vec<_>>().join("|")));
        }
        lines
    }
}

/// One row: the first cell to the left, the others to the right.
fn line(row: &[String], widths: &[usize], markdown: bool) -> String {
    let cells = row.iter().zip(widths).enumerate();
    let cells = cells.map(|(column, (cell, width))| {
        if column == 0 {
            format!("{cell:<width$}")
        } else {
            format!("{cell:>width$}")
        }
    });
    let cells: Vec<String> = cells.collect();
    if markdown {
        format!("| {} |", cells.join(" | "))
    } else {
        cells.join("  ")
    }
}
