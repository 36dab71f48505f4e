//! Merge back: an output takes the place of the inner vertex that alone drives it.

use crate::board::{Board, Sizes};
use crate::refusal::{self, Refusal};

pub fn merge_back(sizes: Sizes, table: &mut [i32], scratch: usize, o: u64) -> Result<u64, Refusal> {
    let (board, _) = Board::open(sizes, table, scratch)?;
    let o = board.output(o)?;
    try_merge_back(&board, table, o)?;
    Ok(board.arcs(table))
}

pub fn try_merge_back(board: &Board, table: &mut [i32], o: usize) -> Result<(), Refusal> {
    let mut arcs_in = board.arcs_in(table, o);
    let (v, delay) = match (arcs_in.next(), arcs_in.next()) {
        (Some((v, delay)), None) if board.is_inner(v) => (v, delay),
        _ => return Err(refusal::SHAPE),
    };
    drop(arcs_in);
    for (_, before) in board.arcs_in(table, v) {
        Board::new_delay(i64::from(before) + i64::from(delay))?;
    }
    for (t, after) in board.arcs_out(table, v) {
        if t != o {
            Board::new_delay(i64::from(after) - i64::from(delay))?;
        }
    }
    for u in 0..board.vertices {
        let before = board.row(table, u)[v];
        if before != Board::ABSENT {
            board.lay_arc(table, u, o, before + delay);
        }
    }
    for t in 0..board.vertices {
        let after = board.row(table, v)[t];
        if after != Board::ABSENT && t != o {
            board.lay_arc(table, o, t, after - delay);
        }
    }
    board.remove_arcs_in(table, v);
    board.remove_arcs_out(table, v);
    Ok(())
}
