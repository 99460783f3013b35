//! Cells in columns that are as wide as what stands in them.

#[derive(Clone, Copy)]
pub(super) enum Side {
    Left,
    Right,
}

/// A line for each row, a little to the right, so that headings stand out.
pub(super) fn aligned(sides: &[Side], rows: &[Vec<String>]) -> String {
    let cells = |column: usize| rows.iter().map(move |row| row[column].len());
    let widths: Vec<usize> = (0..sides.len())
        .map(|column| cells(column).max().unwrap_or(0))
        .collect();
    let line = |row: &Vec<String>| {
        let columns = sides.iter().zip(&widths).zip(row);
        let cells: String = columns
            .map(|((side, width), cell)| padded(*side, *width, cell))
            .collect();
        format!("{}\n", cells.trim_end())
    };
    rows.iter().map(line).collect()
}

fn padded(side: Side, width: usize, cell: &str) -> String {
    match side {
        Side::Left => format!("  {cell:<width$}"),
        Side::Right => format!("  {cell:>width$}"),
    }
}
