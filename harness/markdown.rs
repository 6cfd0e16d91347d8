//! Tables as docs/SPEED.md shows them.

/// A table by the widths of its columns; all but the first are numbers.
pub struct Table<const COLUMNS: usize>(pub [usize; COLUMNS]);

impl<const COLUMNS: usize> Table<COLUMNS> {
    pub fn line(&self, cells: [&str; COLUMNS]) {
        print!("| {:<width$} |", cells[0], width = self.0[0]);
        for (cell, width) in cells.into_iter().zip(self.0).skip(1) {
            print!(" {cell:>width$} |");
        }
        println!();
    }

    /// A title, and the columns' names.
    pub fn head(&self, title: &str, names: [&str; COLUMNS]) {
        println!("\n{title}\n");
        self.line(names);
        print!("|{}|", "-".repeat(self.0[0] + 2));
        for width in &self.0[1..] {
            print!("{}:|", "-".repeat(width + 1));
        }
        println!();
    }
}
