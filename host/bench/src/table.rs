//! Tables of the output, for people and for `picture`: a line `== NAME`, notes, a line of heads, a line a row. Two spaces or
//! more part the cells, and no cell has two in a row.

pub struct Table {
    rows: Vec<Vec<String>>,
}

impl Table {
    /// Begins a table under its name and notes, which are printed at once.
    pub fn new(name: &str, notes: &[&str], heads: &[&str]) -> Table {
        println!("== {name}");
        for note in notes {
            println!("{note}");
        }
        println!();
        Table {
            rows: vec![heads.iter().map(|head| head.to_string()).collect()],
        }
    }

    pub fn row(&mut self, cells: Vec<String>) {
        assert!(cells
            .iter()
            .all(|cell| !cell.is_empty() && !cell.contains("  ")));
        self.rows.push(cells);
    }

    /// Numbers stand to the right, words to the left.
    pub fn print(self) {
        let columns = self.rows[0].len();
        let widths: Vec<usize> = (0..columns).map(|column| self.width(column)).collect();
        let right: Vec<bool> = (0..columns).map(|column| self.is_number(column)).collect();
        for row in &self.rows {
            let mut line = String::new();
            for ((cell, &width), &right) in row.iter().zip(&widths).zip(&right) {
                line += &if right {
                    format!("{cell:>width$}  ")
                } else {
                    format!("{cell:<width$}  ")
                };
            }
            println!("{}", line.trim_end());
        }
        println!();
    }

    fn width(&self, column: usize) -> usize {
        let cells = self.rows.iter().map(|row| row[column].chars().count());
        cells.max().unwrap_or(0)
    }

    fn is_number(&self, column: usize) -> bool {
        let mut cells = self.rows[1..].iter().map(|row| &row[column]);
        cells.all(|cell| cell.parse::<f64>().is_ok())
    }
}
