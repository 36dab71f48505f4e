//! The C exports, called in this process over byte runs that start at any address.

use crate::boards;
use crate::calls::{Accepted, Answer, Call};
use crate::rng::Rng;
use crate::tally::{self, Tally};
use second::board::{Board, Sizes};

#[link(name = "host", kind = "static")]
extern "C" {
    fn board_matrix(
        inputs: u64,
        outputs: u64,
        vertices: u64,
        table: *const u8,
        table_length: u64,
        scratch: *mut u8,
        scratch_length: u64,
        matrix: *mut u8,
        matrix_length: u64,
    ) -> i64;
    fn board_shrink(
        inputs: u64,
        outputs: u64,
        vertices: u64,
        table: *mut u8,
        table_length: u64,
        scratch: *mut u8,
        scratch_length: u64,
        k: u64,
    ) -> i64;
    fn board_prune(
        inputs: u64,
        outputs: u64,
        vertices: u64,
        table: *mut u8,
        table_length: u64,
        scratch: *mut u8,
        scratch_length: u64,
    ) -> i64;
}

/// Bytes before and after a lent run, which nobody may write.
const GUARD: usize = 16;

/// A byte run lent to the host, inside a larger one.
struct Lent {
    bytes: Vec<u8>,
    start: usize,
    length: usize,
}

impl Lent {
    fn new(rng: &mut Rng, run: &[u8]) -> Lent {
        let start = GUARD + rng.below(9);
        let mut bytes: Vec<u8> = (0..start + run.len() + GUARD).map(|at| at as u8).collect();
        bytes[start..][..run.len()].copy_from_slice(run);
        Lent { bytes, start, length: run.len() }
    }

    fn pointer(&mut self) -> *mut u8 {
        self.bytes[self.start..].as_mut_ptr()
    }

    fn run(&self) -> &[u8] {
        &self.bytes[self.start..][..self.length]
    }

    fn guards_hold(&self) -> bool {
        let after = self.start + self.length..self.bytes.len();
        (0..self.start).chain(after).all(|at| self.bytes[at] == at as u8)
    }
}

/// The bytes of a run for `cells` cells, mostly whole, at times cut or with some more.
fn run_length(rng: &mut Rng, cells: usize, width: usize) -> usize {
    let whole = width * boards::length(rng, cells);
    match rng.below(6) {
        0 => whole.saturating_sub(1 + rng.below(width)),
        1 | 2 => whole + rng.below(width),
        _ => whole,
    }
}

/// The host's three calls on a table, against the second implementation.
pub fn check(rng: &mut Rng, sizes: Sizes, table: &[i32], tally: &mut Tally) -> Result<(), String> {
    let board = Board::new(sizes).ok();
    let vertices = sizes.vertices;
    let destination = board.map_or(4, |board| board.inputs * board.outputs);
    let k = match board {
        Some(board) if rng.chance(85) && board.inputs + board.outputs < board.vertices => {
            let ends = board.inputs + board.outputs;
            (ends + rng.below(board.vertices - ends)) as u64
        }
        _ => rng.nonsense(vertices),
    };
    let matrix_length = run_length(rng, destination, 8);
    check_one(
        rng,
        sizes,
        table,
        board,
        &Call::Matrix { destination: matrix_length / 8 },
        matrix_length,
        tally,
    )?;
    check_one(rng, sizes, table, board, &Call::Shrink { k }, 0, tally)?;
    check_one(rng, sizes, table, board, &Call::Prune, 0, tally)
}

fn check_one(
    rng: &mut Rng,
    sizes: Sizes,
    table: &[i32],
    board: Option<Board>,
    call: &Call,
    matrix_length: usize,
    tally: &mut Tally,
) -> Result<(), String> {
    let (cells, scratch_cells) =
        board.map_or((9, 9), |board| (board.cells(), boards::scratch_cells(rng, board)));
    let mut table_bytes: Vec<u8> = table.iter().flat_map(|cell| cell.to_le_bytes()).collect();
    table_bytes.resize(run_length(rng, cells, 4), 0x5a);
    let mut table_cells: Vec<i32> = table_bytes
        .chunks_exact(4)
        .map(|cell| i32::from_le_bytes([cell[0], cell[1], cell[2], cell[3]]))
        .collect();
    let scratch_bytes: Vec<u8> =
        (0..run_length(rng, scratch_cells, 8)).map(|_| rng.next() as u8).collect();
    // what `perform` fills a destination with, so that untouched cells agree
    let matrix_fill = 9i64.to_le_bytes();
    let matrix_bytes: Vec<u8> = (0..matrix_length).map(|at| matrix_fill[at % 8]).collect();

    let mut lent_table = Lent::new(rng, &table_bytes);
    let mut lent_scratch = Lent::new(rng, &scratch_bytes);
    let mut lent_matrix = Lent::new(rng, &matrix_bytes);
    let Sizes { inputs, outputs, vertices } = sizes;
    let (table_length, scratch_length) = (table_bytes.len() as u64, scratch_bytes.len() as u64);
    let (table_pointer, scratch_pointer) = (lent_table.pointer(), lent_scratch.pointer());
    // each pointer is to a run of at least the length given with it, and the runs are apart
    let (kind, got) = match call {
        Call::Matrix { .. } => (tally::C_MATRIX, unsafe {
            board_matrix(
                inputs,
                outputs,
                vertices,
                table_pointer,
                table_length,
                scratch_pointer,
                scratch_length,
                lent_matrix.pointer(),
                matrix_length as u64,
            )
        }),
        Call::Shrink { k } => (tally::C_SHRINK, unsafe {
            board_shrink(
                inputs,
                outputs,
                vertices,
                table_pointer,
                table_length,
                scratch_pointer,
                scratch_length,
                *k,
            )
        }),
        _ => (tally::C_PRUNE, unsafe {
            board_prune(
                inputs,
                outputs,
                vertices,
                table_pointer,
                table_length,
                scratch_pointer,
                scratch_length,
            )
        }),
    };

    let scratch = scratch_bytes.len() / 8;
    let performed = call.perform(sizes, &mut table_cells, scratch, &mut []);
    let number = performed.answer.number();
    tally.count(kind, number);
    tally.count_scratch(kind, call.vertices(sizes), scratch, number);
    let expected = match performed.answer {
        Answer::Accepted(Accepted::Left(arcs)) => arcs as i64,
        Answer::Accepted(_) => 0,
        _ => -(number as i64),
    };
    let fail = |what: &str| Err(format!("C export on {call:?}, sizes {sizes:?}: {what}"));
    if got != expected {
        return fail(&format!("expected {expected}, got {got}"));
    }
    let mut table_after: Vec<u8> = table_cells.iter().flat_map(|c| c.to_le_bytes()).collect();
    table_after.extend(&table_bytes[table_after.len()..]);
    if lent_table.run() != table_after {
        return fail("another table");
    }
    if let [cells] = &performed.destinations[..] {
        let mut matrix_after: Vec<u8> = cells.iter().flat_map(|c| c.to_le_bytes()).collect();
        matrix_after.extend(&matrix_bytes[matrix_after.len()..]);
        if lent_matrix.run() != matrix_after {
            return fail("another matrix");
        }
    }
    let free = 8 * call.scratch_bound(sizes, performed.answer) as usize;
    if lent_scratch.run()[free..] != scratch_bytes[free..] {
        return fail("scratch bytes changed that may not");
    }
    if ![&lent_table, &lent_scratch, &lent_matrix].iter().all(|lent| lent.guards_hold()) {
        return fail("bytes changed outside a lent run");
    }
    Ok(())
}
