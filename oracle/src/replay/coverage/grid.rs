//! Counts in rows and columns that have names.

use std::io::{self, Write};

pub struct Grid {
    title: &'static str,
    rows: Vec<String>,
    /// None of a plain list.
    columns: Vec<String>,
    counts: Vec<u64>,
}

fn names<T: AsRef<str>>(from: impl IntoIterator<Item = T>) -> Vec<String> {
    from.into_iter()
        .map(|name| name.as_ref().to_owned())
        .collect()
}

impl Grid {
    pub fn list<T: AsRef<str>>(title: &'static str, rows: impl IntoIterator<Item = T>) -> Self {
        Self::new(title, rows, [] as [&str; 0])
    }

    pub fn new<T: AsRef<str>, U: AsRef<str>>(
        title: &'static str,
        rows: impl IntoIterator<Item = T>,
        columns: impl IntoIterator<Item = U>,
    ) -> Self {
        let (rows, columns) = (names(rows), names(columns));
        let counts = vec![0; rows.len() * columns.len().max(1)];
        Self {
            title,
            rows,
            columns,
            counts,
        }
    }

    /// One more of a list's row.
    pub fn add(&mut self, row: &str) {
        self.add_many(row, 1);
    }

    pub fn add_many(&mut self, row: &str, count: u64) {
        assert!(self.columns.is_empty());
        let row = place(&self.rows, row);
        self.counts[row] += count;
    }

    /// One more where row and column meet.
    pub fn add_at(&mut self, row: &str, column: &str) {
        let (row, column) = (place(&self.rows, row), place(&self.columns, column));
        self.counts[row * self.columns.len() + column] += 1;
    }

    /// How many cells there are, and how many of them count nothing.
    pub fn cells(&self) -> (usize, usize) {
        let never = self.counts.iter().filter(|count| **count == 0).count();
        (self.counts.len(), never)
    }

    pub fn print(&self, out: &mut impl Write) -> io::Result<()> {
        let wide = self.rows.iter().map(|row| row.len()).max().unwrap_or(0);
        let widths: Vec<usize> = match self.columns.is_empty() {
            true => vec![10],
            false => self.columns.iter().map(|name| name.len().max(8)).collect(),
        };
        writeln!(out, "\n{}", self.title)?;
        if !self.columns.is_empty() {
            write!(out, "  {:wide$}", "")?;
            for (name, width) in self.columns.iter().zip(&widths) {
                write!(out, "  {name:>width$}")?;
            }
            writeln!(out)?;
        }
        for (row, counts) in self.rows.iter().zip(self.counts.chunks(widths.len())) {
            write!(out, "  {row:wide$}")?;
            for (&count, &width) in counts.iter().zip(&widths) {
                write!(out, "  {:>width$}", number(count))?;
            }
            writeln!(out)?;
        }
        Ok(())
    }
}

fn place(names: &[String], name: &str) -> usize {
    let found = names.iter().position(|known| known == name);
    found.unwrap_or_else(|| panic!("no row or column is called {name:?}"))
}

/// With commas; nothing at all catches the eye.
pub fn number(count: u64) -> String {
    if count == 0 {
        return "<NEVER>".into();
    }
    let digits = count.to_string();
    let mut text = String::new();
    for (place, digit) in digits.chars().enumerate() {
        if place > 0 && (digits.len() - place) % 3 == 0 {
            text.push(',');
        }
        text.push(digit);
    }
    text
}
