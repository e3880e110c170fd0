//! Rows of words in columns.

/// Lines in which all cells but the last of a row are as wide as the widest of their column. The first column is put to the right.
pub fn aligned(rows: &[Vec<String>]) -> Vec<String> {
    let columns = rows.iter().map(Vec::len).max().unwrap_or(0);
    let widths: Vec<usize> = (0..columns).map(|column| width(rows, column)).collect();
    rows.iter().map(|row| line(row, &widths)).collect()
}

fn width(rows: &[Vec<String>], column: usize) -> usize {
    let cells = rows.iter().filter_map(|row| row.get(column));
    cells.map(|cell| cell.chars().count()).max().unwrap_or(0)
}

fn line(row: &[String], widths: &[usize]) -> String {
    let mut cells = Vec::new();
    for (column, (cell, &width)) in row.iter().zip(widths).enumerate() {
        cells.push(match column {
            0 => format!("{cell:>width$}"),
            _ if column + 1 == row.len() => cell.clone(),
            _ => format!("{cell:<width$}"),
        });
    }
    cells.join("  ").trim_end().to_string()
}
