//! The text that the program `thin` prints.

use crate::board::{Board, Sizes};
use crate::file;
use crate::library::BUILT_IN;
use crate::records::RefusedRead;
use crate::refusal::Refusal;
use crate::run::{self, Outcome};
use std::fmt::Write;

/// What `thin` reads of its input, and no more.
pub const MOST_BYTES: usize = 65_536;

pub fn thin(input: &[u8]) -> String {
    thin_by(run::run, input)
}

/// The text where the run is another one.
pub fn thin_by(
    run: impl FnOnce(Sizes, &mut [i32], usize) -> Result<Outcome, Refusal>,
    input: &[u8],
) -> String {
    match reduced(run, &input[..input.len().min(MOST_BYTES)]) {
        Ok(text) => text,
        Err(RefusedRead { number, offset }) => format!("refused {number} at {offset}\n"),
    }
}

fn reduced(
    run: impl FnOnce(Sizes, &mut [i32], usize) -> Result<Outcome, Refusal>,
    bytes: &[u8],
) -> Result<String, RefusedRead> {
    const CELLS: usize = Board::MOST_VERTICES * Board::MOST_VERTICES;
    const SCRATCH: usize = Board::SCRATCH_PER_VERTEX * Board::MOST_VERTICES;
    let at_start = |number| RefusedRead { number, offset: 0 };
    let mut table = vec![Board::ABSENT; CELLS];
    let sizes = file::read(bytes, &mut table, SCRATCH, &BUILT_IN)?;
    let outcome = run(sizes, &mut table, SCRATCH).map_err(at_start)?;
    let board = Board::new(sizes).map_err(at_start)?;

    let mut text = format!("board {} {} {}\n", sizes.inputs, sizes.outputs, sizes.vertices);
    for from in 0..board.vertices {
        for (to, delay) in board.arcs_out(&table, from) {
            let _ = writeln!(text, "arc {from} {to} {delay}");
        }
    }
    let _ = writeln!(text, "accepted {} arcs {}", outcome.steps, outcome.arcs);
    Ok(text)
}
