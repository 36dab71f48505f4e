//! Cell libraries: the ticks of a mill's cells by their codes, and the files that bring them.

use crate::board::Board;
use crate::records::{refused, Records, RefusedRead};
use crate::refusal::{self, Refusal};

/// A library has a cell for each code, absent where it lacks the code.
pub const CODES: usize = 32;
pub const MOST_TICKS: i32 = 1_000_000;

/// What is in force where no library was read.
pub const BUILT_IN: [i32; CODES] = {
    let mut cells = [Board::ABSENT; CODES];
    // INV, NAND2, AND, OR, MUX
    [cells[0], cells[1], cells[2], cells[3], cells[4]] = [1, 2, 2, 2, 2];
    cells
};

/// A library whose length and cells are right.
pub struct Library<'l>(&'l [i32; CODES]);

impl Library<'_> {
    pub fn lent(cells: &[i32]) -> Result<Library<'_>, Refusal> {
        let cells: &[i32; CODES] = cells.try_into().map_err(|_| refusal::LIBRARY)?;
        if cells.iter().all(|&cell| cell == Board::ABSENT || is_delay(cell)) {
            Ok(Library(cells))
        } else {
            Err(refusal::LIBRARY)
        }
    }

    /// The ticks of a cell without load, where the library has its code.
    pub fn ticks(&self, code: u8) -> Option<u32> {
        let cell = *self.0.get(usize::from(code))?;
        (cell != Board::ABSENT).then_some(cell as u32)
    }
}

fn is_delay(ticks: i32) -> bool {
    (0..=MOST_TICKS).contains(&ticks)
}

/// Reads a library file into the lent cells, which a refusal leaves as they were.
pub fn read_library(bytes: &[u8], library: &mut [i32]) -> Result<(), RefusedRead> {
    if library.len() != CODES {
        return Err(refused(refusal::LIBRARY, 0));
    }
    let mut records = Records::new(bytes);
    let mut cells = [Board::ABSENT; CODES];
    let mut last = None;
    let mut count = 0;
    loop {
        let start = records.at();
        let record =
            read_cell(&mut records, last, count).map_err(|number| refused(number, start))?;
        let Some((code, ticks)) = record else { break };
        cells[code] = ticks;
        last = Some(code);
        count += 1;
    }
    records.finish()?;
    library.copy_from_slice(&cells);
    Ok(())
}

/// One `CL` record as a code and its ticks; none for `EN`.
fn read_cell(
    records: &mut Records,
    last: Option<usize>,
    count: usize,
) -> Result<Option<(usize, i32)>, Refusal> {
    match &records.mark()? {
        b"CL" => {}
        b"EN" => return records.end(count).map(|()| None),
        _ => return Err(refusal::MARK),
    }
    let [code, ticks @ ..] = records.body::<5>()?;
    let (code, ticks) = (usize::from(code), i32::from_le_bytes(ticks));
    if code >= CODES {
        return Err(refusal::FIELD);
    }
    if !is_delay(ticks) {
        return Err(refusal::LIBRARY);
    }
    if last.is_some_and(|last| code <= last) {
        return Err(refusal::NOT_RISING);
    }
    Ok(Some((code, ticks)))
}
