//! The loads of a file's cells, by the bytes alone and word for word: each cell counts all records.

/// A `CE` record.
pub struct Cell {
    pub code: u8,
    /// The file's records that leave its target.
    pub load: usize,
    /// Some of those stand after it.
    pub comes_before: bool,
    /// Some of those stand before it.
    pub comes_after: bool,
}

/// The cells of a file that is read to its end.
pub fn cells(file: &[u8]) -> Vec<Cell> {
    let mut from = Vec::new();
    // each with its place among the records, its target and its code
    let mut cells = Vec::new();
    let mut rest = &file[5..];
    while !rest.starts_with(b"EN") {
        let is_cell = rest.starts_with(b"CE");
        if is_cell {
            cells.push((from.len(), rest[3], rest[4]));
        }
        from.push(rest[2]);
        rest = &rest[if is_cell { 5 } else { 8 }..];
    }
    let cell = |(place, target, code): (usize, u8, u8)| Cell {
        code,
        load: from.iter().filter(|&&from| from == target).count(),
        comes_before: from[place + 1..].contains(&target),
        comes_after: from[..place].contains(&target),
    };
    cells.into_iter().map(cell).collect()
}
