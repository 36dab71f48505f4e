//! The automatic run: rounds of tries until one accepts nothing.

use crate::board::{Board, Sizes};
use crate::delays::Matrix;
use crate::find_star::{self, Candidate};
use crate::refusal::Refusal;
use crate::steps;

/// What a run answers: the steps accepted and the arcs left.
#[derive(Clone, Copy, Debug, PartialEq, Eq)]
pub struct Outcome {
    pub steps: u64,
    pub arcs: u64,
}

pub fn run(sizes: Sizes, table: &mut [i32], scratch: usize) -> Result<Outcome, Refusal> {
    let (board, order) = Board::open(sizes, table, scratch)?;
    // no step changes the matrix, so this one serves every try
    let matrix = Matrix::new(&board, table, &order);
    let mut accepted = 0;
    loop {
        let in_round = round(&board, table, &matrix);
        accepted += in_round;
        if in_round == 0 {
            break;
        }
    }
    Ok(Outcome { steps: accepted, arcs: board.arcs(table) })
}

/// One round's tries; answers how many were accepted.
fn round(board: &Board, table: &mut [i32], matrix: &Matrix) -> u64 {
    let inputs = 0..board.inputs;
    let outputs = board.inputs..board.inputs + board.outputs;
    let inner = board.inputs + board.outputs..board.vertices;
    let mut accepted = 0;

    let mut new = board.free_number(table);
    for (a, b) in pairs(inputs) {
        // without a number to give, this pair and all later ones are skipped
        let Some(k) = new else { break };
        if steps::try_share_inputs(board, table, matrix, a, b, k).is_ok() {
            accepted += 1;
            new = board.free_number(table);
        }
    }
    // an output with fewer than two arcs in is refused as b, without a search for paths; sharing
    // changes the arcs into b alone
    let mut saves = [false; Board::MOST_VERTICES];
    for b in outputs.clone() {
        saves[b] = board.arcs_in(table, b).nth(1).is_some();
    }
    for (a, b) in pairs(outputs.clone()) {
        if saves[b] && steps::try_share_outputs(board, table, matrix, a, b).is_ok() {
            accepted += 1;
            saves[b] = false;
        }
    }
    if steps::try_prune(board, table).is_ok() {
        accepted += 1;
    }
    for k in inner {
        if steps::try_shrink(board, table, k).is_ok() {
            accepted += 1;
        }
    }
    for o in outputs {
        if steps::try_merge_back(board, table, o).is_ok() {
            accepted += 1;
        }
    }
    if let Some(Candidate { sources, targets, new, .. }) = find_star::best(board, table) {
        if steps::try_star(board, table, &sources, &targets, new).is_ok() {
            accepted += 1;
        }
    }
    accepted
}

/// All pairs of two vertices of a range, the first rising, then the second.
fn pairs(range: std::ops::Range<usize>) -> impl Iterator<Item = (usize, usize)> {
    let seconds = range.clone();
    range.flat_map(move |a| seconds.clone().filter(move |&b| b != a).map(move |b| (a, b)))
}
