//! Arrival, required time and margin at every vertex: one pass along the arcs, one against them.
//!
//! All is `inline`, which compiles it with its callers and leaves the other calls' code as it is.

use crate::board::{Board, Sizes};
use crate::delays::{is_time, NONE};
use crate::refusal::{self, Refusal};

/// The lent answers, each with a cell for every vertex.
pub struct Answers<'a> {
    pub arrival: &'a mut [i64],
    pub required: &'a mut [i64],
    pub margin: &'a mut [i64],
}

#[inline]
pub fn margins(
    sizes: Sizes,
    table: &[i32],
    scratch: usize,
    at_inputs: &[i64],
    at_outputs: &[i64],
    answers: Answers,
) -> Result<(), Refusal> {
    let (board, order) = Board::open(sizes, table, scratch)?;
    let Answers { arrival, required, margin } = answers;
    if at_inputs.len() != board.inputs
        || at_outputs.len() != board.outputs
        || !at_inputs.iter().chain(at_outputs).all(is_time)
        || [arrival.len(), required.len(), margin.len()] != [board.vertices; 3]
    {
        return Err(refusal::TIMES);
    }
    find_arrivals(&board, table, &order, at_inputs, arrival);
    find_required(&board, table, &order, at_outputs, required);
    for (margin, (&arrival, &required)) in margin.iter_mut().zip(arrival.iter().zip(&*required)) {
        *margin = if arrival == NONE || required == NONE { NONE } else { required - arrival };
    }
    Ok(())
}

/// The inputs' arrivals are given; each vertex that has one passes it on along its arcs.
#[inline]
fn find_arrivals(
    board: &Board,
    table: &[i32],
    order: &[usize],
    at_inputs: &[i64],
    arrival: &mut [i64],
) {
    arrival.fill(NONE);
    arrival[..board.inputs].copy_from_slice(at_inputs);
    for &u in order {
        let at_u = arrival[u];
        if at_u == NONE {
            continue;
        }
        for (at_v, &delay) in arrival.iter_mut().zip(board.row(table, u)) {
            if delay != Board::ABSENT {
                // `NONE` is below every time
                *at_v = (*at_v).max(at_u + i64::from(delay));
            }
        }
    }
}

/// The outputs' own times are given; each vertex takes the least of its own and its targets'.
#[inline]
fn find_required(
    board: &Board,
    table: &[i32],
    order: &[usize],
    at_outputs: &[i64],
    required: &mut [i64],
) {
    required.fill(NONE);
    required[board.inputs..][..board.outputs].copy_from_slice(at_outputs);
    for &v in order.iter().rev() {
        let own = Some(required[v]).filter(|&time| time != NONE);
        let theirs = board
            .arcs_out(table, v)
            .filter(|&(t, _)| required[t] != NONE)
            .map(|(t, delay)| required[t] - i64::from(delay));
        required[v] = theirs.chain(own).min().unwrap_or(NONE);
    }
}

/// The least margin that is present.
#[inline]
pub fn least(margins: &[i64]) -> Option<i64> {
    margins.iter().copied().filter(|&margin| margin != NONE).min()
}
