//! Tables in Markdown that can also be read as they stand.

/// A table: the first column holds words, the others numbers or short words.
pub struct Table {
    rows: Vec<Vec<String>>,
}

impl Table {
    /// A table with these headings.
    pub fn new<T: ToString>(headings: impl IntoIterator<Item = T>) -> Table {
        Table { rows: vec![headings.into_iter().map(|heading| heading.to_string()).collect()] }
    }

    /// Adds a row.
    pub fn row(&mut self, cells: impl IntoIterator<Item = String>) {
        self.rows.push(cells.into_iter().collect());
    }

    /// The table in Markdown, with a line end behind each row.
    pub fn markdown(&self) -> String {
        let columns = self.rows[0].len();
        let width = |column: usize| self.rows.iter().filter_map(|row| row.get(column)).map(|cell| cell.chars().count()).max().unwrap_or(0).max(3);
        let widths: Vec<usize> = (0..columns).map(width).collect();
        let rule: Vec<String> = widths.iter().enumerate().map(|(column, &width)| rule(column, width)).collect();
        let mut lines: Vec<String> = self.rows.iter().map(|row| line(row, &widths)).collect();
        lines.insert(1, format!("|-{}|\n", rule.join("|-")));
        lines.concat()
    }
}

/// The rule under a heading: the first column stands left, the others right.
fn rule(column: usize, width: usize) -> String {
    if column == 0 {
        "-".repeat(width + 1)
    } else {
        "-".repeat(width) + ":"
    }
}

fn line(row: &[String], widths: &[usize]) -> String {
    let cell = |(column, (cell, &width)): (usize, (&String, &usize))| {
        if column == 0 {
            format!("{cell:width$}")
        } else {
            format!("{cell:>width$}")
        }
    };
    let cells: Vec<String> = row.iter().zip(widths).enumerate().map(cell).collect();
    format!("| {} |\n", cells.join(" | "))
}

#[cfg(test)]
mod tests {
    use super::*;

    #[test]
    fn tables_line_up() {
        let mut table = Table::new(["text", "naive", "kmp"]);
        table.row(["(ab)^n", "0.98", "12.00"].map(String::from));
        assert_eq!(table.markdown(), "| text   | naive |   kmp |\n|--------|------:|------:|\n| (ab)^n |  0.98 | 12.00 |\n");
    }
}
