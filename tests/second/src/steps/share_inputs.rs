//! Share inputs: two inputs whose rows differ by one number send their signals through one vertex.

use super::common_difference;
use crate::board::{Board, Sizes};
use crate::delays::Matrix;
use crate::refusal::{self, Refusal};

pub fn share_inputs(
    sizes: Sizes,
    table: &mut [i32],
    scratch: usize,
    a: u64,
    b: u64,
    k: u64,
) -> Result<u64, Refusal> {
    let (board, order) = Board::open(sizes, table, scratch)?;
    let (a, b, k) = (board.input(a)?, board.input(b)?, board.vertex(k)?);
    if a == b {
        return Err(refusal::VERTEX);
    }
    let k = board.new_number(table, k)?;
    let matrix = Matrix::new(&board, table, &order);
    let difference = common_difference(matrix.row(a).iter(), matrix.row(b).iter())?;
    share_if_it_saves(&board, table, a, b, k, difference)?;
    Ok(board.arcs(table))
}

/// The same for the run that the benchmark takes, which often meets two arcs out of b and nothing to
/// delete: that is refused without a copy. `k` is inner and not in use.
pub fn try_share_inputs(
    board: &Board,
    table: &mut [i32],
    matrix: &Matrix,
    a: usize,
    b: usize,
    k: usize,
) -> Result<(), Refusal> {
    let difference = common_difference(matrix.row(a).iter(), matrix.row(b).iter())?;
    if board.arcs_out(table, b).count() == 2 && !some_would_go(board, table, b) {
        return Err(refusal::NOTHING_SAVED);
    }
    share_if_it_saves(board, table, a, b, k, difference)
}

/// Whether arcs leave an inner vertex that only b leads to, or nothing: what a leads to, k will.
fn some_would_go(board: &Board, table: &[i32], b: usize) -> bool {
    let leads = |&v: &usize| board.arcs_out(table, v).next().is_some();
    let by_b_alone = |v| board.arcs_in(table, v).all(|(u, _)| u == b);
    (board.inputs + board.outputs..board.vertices).filter(leads).any(by_b_alone)
}

/// Refusals 13 and 14, and the share.
fn share_if_it_saves(
    board: &Board,
    table: &mut [i32],
    a: usize,
    b: usize,
    k: usize,
    difference: i64,
) -> Result<(), Refusal> {
    match board.arcs_out(table, b).count() {
        0 | 1 => return Err(refusal::NOTHING_SAVED),
        2 => {
            let mut copy = table[..board.cells()].to_vec();
            // what goes doesn't depend on the delay of b→k, which is range-checked after the count
            share(board, &mut copy, a, b, k, 0);
            if delete_undriven(board, &mut copy) == 0 {
                return Err(refusal::NOTHING_SAVED);
            }
            board.row_mut(&mut copy, b)[k] = Board::new_delay(difference)?;
            table[..board.cells()].copy_from_slice(&copy);
        }
        _ => {
            let difference = Board::new_delay(difference)?;
            share(board, table, a, b, k, difference);
        }
    }
    Ok(())
}

/// `k` takes over a's arcs, b's old arcs go.
fn share(board: &Board, table: &mut [i32], a: usize, b: usize, k: usize, difference: i32) {
    let row_of_a = board.vertices * a;
    table.copy_within(row_of_a..row_of_a + board.vertices, board.vertices * k);
    board.remove_arcs_out(table, a);
    board.remove_arcs_out(table, b);
    board.lay_arc(table, a, k, 0);
    board.lay_arc(table, b, k, difference);
}

/// In rounds, until none goes: the arcs that leave an inner vertex without arcs in. How many went.
fn delete_undriven(board: &Board, table: &mut [i32]) -> usize {
    let mut deleted = 0;
    loop {
        let leads = |&v: &usize| board.arcs_out(table, v).next().is_some();
        let undriven = |&v: &usize| board.is_inner(v) && board.arcs_in(table, v).next().is_none();
        let round: Vec<usize> = (0..board.vertices).filter(leads).filter(undriven).collect();
        if round.is_empty() {
            return deleted;
        }
        for v in round {
            deleted += board.arcs_out(table, v).count();
            board.remove_arcs_out(table, v);
        }
    }
}
