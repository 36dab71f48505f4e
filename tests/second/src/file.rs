//! Board files: reading and writing.

use crate::board::{Board, Sizes};
use crate::library::Library;
use crate::records::{refused, Records, RefusedRead};
use crate::refusal::{self, Refusal};

/// Reads a file into the lent table, its cells by the lent library, and answers the sizes it states.
pub fn read(
    bytes: &[u8],
    table: &mut [i32],
    scratch: usize,
    library: &[i32],
) -> Result<Sizes, RefusedRead> {
    let at_start = |number| refused(number, 0);
    let library = Library::lent(library).map_err(at_start)?;
    let mut records = Records::new(bytes);
    let (sizes, board) = read_sizes(&mut records, table.len(), scratch).map_err(at_start)?;
    table[..board.cells()].fill(Board::ABSENT);
    let outcome = read_arcs(&board, &library, &mut records, table);
    if outcome.is_err() {
        table[..board.cells()].fill(Board::ABSENT);
    }
    outcome.map(|()| sizes)
}

/// The `BD` record, and checks 1 to 3 on what it states.
fn read_sizes(
    records: &mut Records,
    table: usize,
    scratch: usize,
) -> Result<(Sizes, Board), Refusal> {
    if records.mark()? != *b"BD" {
        return Err(refusal::MARK);
    }
    let [inputs, outputs, vertices] = records.body()?;
    let sizes = Sizes { inputs: inputs.into(), outputs: outputs.into(), vertices: vertices.into() };
    Ok((sizes, Board::lent(sizes, table, scratch)?))
}

/// All records after `BD`, what follows the last, and checks 5 and 6.
fn read_arcs(
    board: &Board,
    library: &Library,
    records: &mut Records,
    table: &mut [i32],
) -> Result<(), RefusedRead> {
    let mut last = None;
    let mut count = 0;
    let mut leaving = [0; Board::MOST_VERTICES];
    let mut cells = Vec::new();
    loop {
        let start = records.at();
        let record = read_arc(board, library, records, last, count)
            .map_err(|number| refused(number, start))?;
        let Some((from, to, delay)) = record else { break };
        match delay {
            Delay::Stated(delay) => table[board.vertices * from + to] = delay,
            Delay::Cell(ticks) => cells.push((from, to, ticks)),
        }
        leaving[from] += 1;
        last = Some((from, to));
        count += 1;
    }
    records.finish()?;
    // the loads are known only now
    for (from, to, ticks) in cells {
        table[board.vertices * from + to] = under_load(ticks, leaving[to]);
    }
    board.check_arcs(table).map_err(|number| refused(number, 0))?;
    Ok(())
}

/// The delay of an arc, as its record gives it.
enum Delay {
    Stated(i32),
    /// A cell's ticks, its load still to come.
    Cell(u32),
}

/// One `AR` or `CE` record as an arc; none for `EN`.
fn read_arc(
    board: &Board,
    library: &Library,
    records: &mut Records,
    last: Option<(usize, usize)>,
    count: usize,
) -> Result<Option<(usize, usize, Delay)>, Refusal> {
    let (from, to, delay) = match &records.mark()? {
        b"AR" => {
            let [from, to, delay @ ..] = records.body::<6>()?;
            let delay = i32::from_le_bytes(delay);
            (from, to, Board::in_range(delay.into()).then_some(Delay::Stated(delay)))
        }
        b"CE" => {
            let [from, to, code] = records.body()?;
            (from, to, library.ticks(code).map(Delay::Cell))
        }
        b"EN" => return records.end(count).map(|()| None),
        _ => return Err(refusal::MARK),
    };
    let (from, to) = (usize::from(from), usize::from(to));
    let delay = delay.ok_or(refusal::FIELD)?;
    if from >= board.vertices || to >= board.vertices {
        return Err(refusal::FIELD);
    }
    if last.is_some_and(|last| (from, to) <= last) {
        return Err(refusal::NOT_RISING);
    }
    Ok(Some((from, to, delay)))
}

/// A cell's delay: a fifth more for each record that leaves its target, rounded up.
fn under_load(ticks: u32, load: u32) -> i32 {
    (ticks * (5 + load)).div_ceil(5) as i32
}

/// Writes the board as a file and answers its bytes.
pub fn write(
    sizes: Sizes,
    table: &[i32],
    scratch: usize,
    destination: &mut [u8],
) -> Result<u64, Refusal> {
    let (board, _) = Board::open(sizes, table, scratch)?;
    let arcs = board.arcs(table);
    let length = 5 + 8 * arcs as usize + 4;
    if destination.len() < length {
        return Err(refusal::SHORT_DESTINATION);
    }
    let mut at = 0;
    let mut put = |bytes: &[u8]| {
        destination[at..][..bytes.len()].copy_from_slice(bytes);
        at += bytes.len();
    };
    put(b"BD");
    put(&[board.inputs as u8, board.outputs as u8, board.vertices as u8]);
    for from in 0..board.vertices {
        for (to, delay) in board.arcs_out(table, from) {
            put(b"AR");
            put(&[from as u8, to as u8]);
            put(&delay.to_le_bytes());
        }
    }
    put(b"EN");
    put(&(arcs as u16).to_le_bytes());
    Ok(length as u64)
}
