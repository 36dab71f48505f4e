//! Share outputs: of two outputs whose columns differ by one number, one takes its signal from the
//! other.

use super::common_difference;
use crate::board::{Board, Sizes};
use crate::delays::Matrix;
use crate::order::path_leads;
use crate::refusal::{self, Refusal};

pub fn share_outputs(
    sizes: Sizes,
    table: &mut [i32],
    scratch: usize,
    a: u64,
    b: u64,
) -> Result<u64, Refusal> {
    let (board, order) = Board::open(sizes, table, scratch)?;
    let (a, b) = (board.output(a)?, board.output(b)?);
    if a == b {
        return Err(refusal::VERTEX);
    }
    let matrix = Matrix::new(&board, table, &order);
    try_share_outputs(&board, table, &matrix, a, b)?;
    Ok(board.arcs(table))
}

pub fn try_share_outputs(
    board: &Board,
    table: &mut [i32],
    matrix: &Matrix,
    a: usize,
    b: usize,
) -> Result<(), Refusal> {
    let column = |output: usize| matrix.column(output - board.inputs);
    let difference = common_difference(column(a), column(b))?;
    if path_leads(board, table, b, a) {
        return Err(refusal::PATH_BACK);
    }
    if board.arcs_in(table, b).count() < 2 {
        return Err(refusal::NOTHING_SAVED);
    }
    let difference = Board::new_delay(difference)?;
    board.remove_arcs_in(table, b);
    board.lay_arc(table, a, b, difference);
    Ok(())
}
