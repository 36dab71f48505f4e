//! Shrink: an inner vertex with fan-in one or fan-out one goes, its arcs joined end to end.

use crate::board::{Board, Sizes};
use crate::refusal::{self, Refusal};

pub fn shrink(sizes: Sizes, table: &mut [i32], scratch: usize, k: u64) -> Result<u64, Refusal> {
    let (board, _) = Board::open(sizes, table, scratch)?;
    let k = board.inner(k)?;
    try_shrink(&board, table, k)?;
    Ok(board.arcs(table))
}

pub fn try_shrink(board: &Board, table: &mut [i32], k: usize) -> Result<(), Refusal> {
    if board.arcs_in(table, k).count() != 1 && board.arcs_out(table, k).count() != 1 {
        return Err(refusal::SHAPE);
    }
    for (_, first) in board.arcs_in(table, k) {
        for (_, second) in board.arcs_out(table, k) {
            Board::new_delay(i64::from(first) + i64::from(second))?;
        }
    }
    for u in 0..board.vertices {
        let first = board.row(table, u)[k];
        if first == Board::ABSENT {
            continue;
        }
        for t in 0..board.vertices {
            let second = board.row(table, k)[t];
            if second != Board::ABSENT {
                board.lay_arc(table, u, t, first + second);
            }
        }
    }
    board.remove_arcs_in(table, k);
    board.remove_arcs_out(table, k);
    Ok(())
}
