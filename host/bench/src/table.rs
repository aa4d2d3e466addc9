//! Tables in plain text that are Markdown too: columns as wide as their widest cell.

/// A table: the names of its columns, how many of them hold words, and its rows.
pub struct Table {
    names: Vec<String>,
    words: usize,
    rows: Vec<Vec<String>>,
}

impl Table {
    /// An empty table; the first columns, as many as hold words, are set to the left, the others to the right.
    pub fn new(words: usize, names: &[&str]) -> Table {
        Table {
            names: names.iter().map(|name| name.to_string()).collect(),
            words,
            rows: Vec::new(),
        }
    }

    /// Adds a row.
    pub fn add<const N: usize>(&mut self, cells: [String; N]) {
        self.rows.push(cells.into());
    }

    /// The table's text.
    pub fn text(&self) -> String {
        let all = || std::iter::once(&self.names).chain(&self.rows);
        let width =
            |column: usize| all().map(|row| row[column].chars().count()).fold(3, usize::max);
        let widths: Vec<usize> = (0..self.names.len()).map(width).collect();
        let rule = widths.iter().enumerate().map(|(column, &width)| {
            let dashes = "-".repeat(width - 1);
            if column < self.words {
                format!("{dashes}-")
            } else {
                format!("{dashes}:")
            }
        });
        let mut lines =
            vec![self.line(&self.names, &widths), self.line(&rule.collect::<Vec<_>>(), &widths)];
        lines.extend(self.rows.iter().map(|row| self.line(row, &widths)));
        lines.concat()
    }

    fn line(&self, cells: &[String], widths: &[usize]) -> String {
        let cell = |(column, (cell, &width)): (usize, (&String, &usize))| {
            if column < self.words {
                format!("| {cell:<width$} ")
            } else {
                format!("| {cell:>width$} ")
            }
        };
        cells.iter().zip(widths).enumerate().map(cell).collect::<String>() + "|\n"
    }
}

/// A figure to two decimals, or a dash where there is none.
pub fn figure(value: Option<f64>) -> String {
    value.map_or("-".to_string(), |value| format!("{value:.2}"))
}

#[cfg(test)]
mod tests {
    use super::*;

    #[test]
    fn columns_are_aligned() {
        let mut table = Table::new(1, &["file", "MiB"]);
        table.add(["a".into(), "16".into()]);
        table.add(["board".into(), figure(Some(1.0))]);
        let text = "| file  |  MiB |\n| ----- | ---: |\n| a     |   16 |\n| board | 1.00 |\n";
        assert_eq!(table.text(), text);
    }
}
