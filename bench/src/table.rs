//! A table with notes below it, as plain text or in Markdown.

#[derive(Clone, Copy)]
pub enum Style {
    Plain,
    Markdown,
}

pub struct Table {
    pub title: String,
    /// The first line has the names of the columns.
    pub lines: Vec<Vec<String>>,
    pub notes: Vec<String>,
}

impl Table {
    pub fn text(&self, style: Style) -> String {
        match style {
            Style::Plain => self.plain(),
            Style::Markdown => self.markdown(),
        }
    }

    fn plain(&self) -> String {
        let mut text = format!("{}\n\n", self.title);
        for line in &self.lines {
            let cells = line.iter().enumerate();
            let padded = cells.map(|(column, cell)| self.pad(column, cell));
            text += &(padded.collect::<Vec<_>>().join("  ") + "\n");
        }
        text + &self.below("")
    }

    /// A cell as wide as its column: names to the left, numbers to the right.
    fn pad(&self, column: usize, cell: &str) -> String {
        let widths = self.lines.iter().map(|line| line[column].len());
        let width = widths.max().unwrap_or(0);
        if column == 0 {
            format!("{cell:<width$}")
        } else {
            format!("{cell:>width$}")
        }
    }

    fn markdown(&self) -> String {
        let mut text = format!("## {}\n\n", self.title);
        for (number, line) in self.lines.iter().enumerate() {
            text += &format!("| {} |\n", line.join(" | "));
            if number == 0 {
                text += &format!("|---{}|\n", "|---:".repeat(line.len() - 1));
            }
        }
        text + &self.below("- ")
    }

    /// The notes, each with this before it.
    fn below(&self, mark: &str) -> String {
        let notes = self.notes.iter().map(|note| format!("{mark}{note}\n"));
        let gap = if self.notes.is_empty() { "" } else { "\n" };
        gap.to_string() + &notes.collect::<String>()
    }
}
