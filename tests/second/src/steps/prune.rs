//! Prune: only the arcs on a path of delay M(i,j), for some joined i and j, stay.

use crate::board::{Board, Sizes};
use crate::delays::{FromInputs, NONE};
use crate::order;
use crate::refusal::{self, Refusal};

pub fn prune(sizes: Sizes, table: &mut [i32], scratch: usize) -> Result<u64, Refusal> {
    let (board, order) = Board::open(sizes, table, scratch)?;
    prune_along(&board, table, &order)?;
    Ok(board.arcs(table))
}

pub fn try_prune(board: &Board, table: &mut [i32]) -> Result<(), Refusal> {
    let order = order::topological(board, table).ok_or(refusal::CYCLE)?;
    prune_along(board, table, &order)
}

/// A path of delay M(i,j) consists of arcs u→v that carry i's greatest delay at u on to its greatest
/// at v. So such an arc stays exactly if v is an output or has such an arc, for the same i, that
/// stays: this is settled from the outputs back.
fn prune_along(board: &Board, table: &mut [i32], order: &[usize]) -> Result<(), Refusal> {
    let inputs = board.inputs;
    let delays = FromInputs::new(board, table, order);
    // for each vertex and input, whether the input's greatest delay there decides at some output
    let mut decides = vec![false; board.vertices * inputs];
    decides[inputs * inputs..][..board.outputs * inputs].fill(true);
    let mut dropped = false;
    let mut at_u = [false; Board::MOST_VERTICES];
    let at_u = &mut at_u[..inputs];
    for &u in order.iter().rev() {
        at_u.copy_from_slice(&decides[u * inputs..][..inputs]);
        let from = &delays.to(u)[..inputs];
        for (v, cell) in board.row_mut(table, u).iter_mut().enumerate() {
            if *cell == Board::ABSENT {
                continue;
            }
            let delay = i64::from(*cell);
            let (to, at_v) = (&delays.to(v)[..inputs], &decides[v * inputs..][..inputs]);
            let mut kept = false;
            for i in 0..inputs {
                if from[i] != NONE && from[i] + delay == to[i] && at_v[i] {
                    at_u[i] = true;
                    kept = true;
                }
            }
            if !kept {
                *cell = Board::ABSENT;
                dropped = true;
            }
        }
        decides[u * inputs..][..inputs].copy_from_slice(at_u);
    }
    if dropped {
        Ok(())
    } else {
        Err(refusal::NOTHING_SAVED)
    }
}
