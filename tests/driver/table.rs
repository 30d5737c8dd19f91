//! The table at the end of a run: how often each row was reached.

use std::fmt::Write;

/// A block of the table, as rows and columns.
pub struct Block {
    pub title: &'static str,
    pub rows: Vec<String>,
    pub columns: Vec<String>,
    /// Which cells must be reached.
    pub required: fn(row: usize, column: usize) -> bool,
    /// Whether it is shown as one line: how many of its cells were reached.
    pub condensed: bool,
    /// Whether the lists that crates replay cover it.
    pub is_replayed: bool,
}

impl Block {
    /// A list of rows, each of which must be reached.
    pub fn list<S: ToString>(title: &'static str, rows: impl IntoIterator<Item = S>) -> Self {
        Self::grid(title, rows, [""], |_, _| true)
    }

    pub fn grid<R: ToString, C: ToString>(
        title: &'static str,
        rows: impl IntoIterator<Item = R>,
        columns: impl IntoIterator<Item = C>,
        required: fn(usize, usize) -> bool,
    ) -> Self {
        let rows = rows.into_iter().map(|r| r.to_string()).collect();
        let columns = columns.into_iter().map(|c| c.to_string()).collect();
        Self { title, rows, columns, required, condensed: false, is_replayed: true }
    }

    /// `cells` values, all of which must be reached, in one line.
    pub fn condensed(title: &'static str, cells: usize) -> Self {
        Self { condensed: true, ..Self::list(title, 0..cells) }
    }

    pub fn not_replayed(self) -> Self {
        Self { is_replayed: false, ..self }
    }
}

/// What a case leaves for the list of answers: the cells that it reached, as block and cell, and a record for each call.
#[derive(Default)]
pub struct Note {
    pub cells: Vec<(usize, usize)>,
    pub answers: Vec<Vec<u8>>,
}

/// Counts of every cell of every block.
pub struct Table {
    blocks: Vec<Block>,
    counts: Vec<Vec<u64>>,
    /// For the list of answers alone.
    note: Option<Note>,
}

impl Table {
    pub fn new(blocks: Vec<Block>) -> Self {
        let counts = blocks.iter().map(|b| vec![0; b.rows.len() * b.columns.len()]).collect();
        Self { blocks, counts, note: None }
    }

    /// A table that notes what each case leaves for the list of answers.
    pub fn noting(blocks: Vec<Block>) -> Self {
        Self { note: Some(Note::default()), ..Self::new(blocks) }
    }

    pub fn blocks(&self) -> &[Block] {
        &self.blocks
    }

    pub fn note(&mut self, answer: impl FnOnce() -> Vec<u8>) {
        if let Some(note) = &mut self.note {
            note.answers.push(answer());
        }
    }

    pub fn take_note(&mut self) -> Note {
        self.note.replace(Note::default()).unwrap_or_default()
    }

    pub fn hit(&mut self, block: usize, row: usize) {
        self.hit_cell(block, row, 0);
    }

    pub fn hit_if(&mut self, is_met: bool, block: usize, row: usize) {
        if is_met {
            self.hit(block, row);
        }
    }

    pub fn hit_cell(&mut self, block: usize, row: usize, column: usize) {
        let columns = self.blocks[block].columns.len();
        self.counts[block][row * columns + column] += 1;
        if let Some(note) = &mut self.note {
            note.cells.push((block, row * columns + column));
        }
    }

    pub fn add(&mut self, other: &Self) {
        for (mine, theirs) in self.counts.iter_mut().flatten().zip(other.counts.iter().flatten()) {
            *mine += theirs;
        }
    }

    fn cells(&self, block: usize) -> impl Iterator<Item = (usize, usize, u64)> + '_ {
        let columns = self.blocks[block].columns.len();
        self.counts[block].iter().enumerate().map(move |(i, &n)| (i / columns, i % columns, n))
    }

    /// The names of the required cells that were not reached.
    pub fn empty(&self) -> Vec<String> {
        let mut names = Vec::new();
        for (i, block) in self.blocks.iter().enumerate() {
            let missing = self.counts[i].iter().filter(|&&n| n == 0).count();
            if block.condensed {
                names.extend((missing > 0).then(|| format!("{}: {missing} values", block.title)));
                continue;
            }
            for (row, column, n) in self.cells(i) {
                if n == 0 && (block.required)(row, column) {
                    let name = format!("{} {}", block.rows[row], block.columns[column]);
                    names.push(format!("{}: {}", block.title, name.trim_end()));
                }
            }
        }
        names
    }

    pub fn show(&self) -> String {
        let mut out = String::new();
        for (i, block) in self.blocks.iter().enumerate() {
            if block.condensed {
                self.show_condensed(i, &mut out);
            } else {
                self.show_rows(i, &mut out);
            }
        }
        out
    }

    fn show_condensed(&self, i: usize, out: &mut String) {
        let counts = &self.counts[i];
        let reached = counts.iter().filter(|&&n| n > 0).count();
        let least = counts.iter().min().unwrap_or(&0);
        let title = self.blocks[i].title;
        writeln!(out, "{title}: {reached} of {}, each at least {least} times", counts.len()).unwrap();
    }

    fn show_rows(&self, i: usize, out: &mut String) {
        let block = &self.blocks[i];
        let width = block.rows.iter().map(String::len).max().unwrap_or(0);
        let cell = if block.columns.len() > 8 { 8 } else { 12 };
        writeln!(out, "{}", block.title).unwrap();
        if block.columns.len() > 1 {
            let names: String = block.columns.iter().map(|c| format!("{c:>cell$}")).collect();
            writeln!(out, "  {:width$}{names}", "").unwrap();
        }
        for (row, name) in block.rows.iter().enumerate() {
            write!(out, "  {name:width$}").unwrap();
            for (_, column, n) in self.cells(i).filter(|c| c.0 == row) {
                let blank = n == 0 && !(block.required)(row, column);
                let shown = if blank { "-".into() } else { n.to_string() };
                write!(out, "{shown:>cell$}").unwrap();
            }
            writeln!(out).unwrap();
        }
    }
}
