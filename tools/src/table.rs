//! Tables in plain text.

/// A word for each column.
pub type Row = Vec<String>;

/// The longest word of each column.
pub fn widths<'a>(rows: impl IntoIterator<Item = &'a Row>) -> Vec<usize> {
    let mut widths = Vec::new();
    for row in rows {
        widths.resize(row.len(), 0);
        widths.iter_mut().zip(row).for_each(|(width, word)| *width = word.len().max(*width));
    }
    widths
}

/// The row in its columns: numbers to the right, and one column of words to the left.
pub fn aligned(row: &Row, widths: &[usize], words: usize) -> String {
    let cell = |(column, (word, &width)): (usize, (&String, &usize))| {
        if column == words {
            format!("{word:<width$}")
        } else {
            format!("{word:>width$}")
        }
    };
    row.iter().zip(widths).enumerate().map(cell).collect::<Vec<_>>().join("  ").trim_end().to_string()
}
