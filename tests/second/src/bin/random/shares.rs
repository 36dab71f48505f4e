//! Which case of ticket 6 a share of inputs was, by its answer and the tables before and after it.

use second::board::{Board, Sizes};
use second::delays::{Matrix, NONE};
use second::refusal;

/// A share as it was called and what came of it, the number 0 if it was accepted.
pub struct Share<'t> {
    pub sizes: Sizes,
    pub a: u64,
    pub b: u64,
    pub number: u64,
    pub before: &'t [i32],
    pub after: &'t [i32],
}

/// Where b has two arcs, and others from which it is told. An idle output has arcs out, and after the
/// share none in.
pub const CASES: [&str; 10] = [
    "accepted, one round",
    "accepted, more rounds",
    "accepted for vertices undriven before",
    "accepted beside an idle output",
    "13",
    "13 beside an idle output",
    "13 before 14",
    "14",
    "one arc, 13 where arcs would go",
    "three arcs, kept where arcs would go",
];

impl Share<'_> {
    /// Whether it was each of the cases.
    pub fn cases(&self) -> [bool; CASES.len()] {
        let none = [false; CASES.len()];
        let decided = matches!(self.number, 0 | refusal::NOTHING_SAVED | refusal::NEW_DELAY);
        match Board::open(self.sizes, self.before, usize::MAX) {
            // by another number a share is refused before b's arcs count
            Ok((board, order)) if decided => self.cases_on(&board, &order),
            _ => none,
        }
    }

    fn cases_on(&self, board: &Board, order: &[usize]) -> [bool; CASES.len()] {
        let (a, b) = (self.a as usize, self.b as usize);
        let arcs = board.arcs_out(self.before, b).count();
        let accepted = self.number == 0;
        let saved_nothing = self.number == refusal::NOTHING_SAVED;

        let leads = |table: &[i32], v| board.arcs_out(table, v).next().is_some();
        let undriven = |&v: &usize| board.arcs_in(self.before, v).next().is_none();
        let by_b_alone = |&v: &usize| board.arcs_in(self.before, v).all(|(u, _)| u == b);
        let inner = board.inputs + board.outputs..board.vertices;
        // the inner vertices whose arcs went, and those whose arcs a first round of deletions takes
        let mut went: Vec<usize> = inner.clone().collect();
        went.retain(|&v| leads(self.before, v) && !leads(self.after, v));
        let some_would_go = inner.clone().any(|v| leads(self.before, v) && by_b_alone(&v));
        let mut outputs = board.inputs..board.inputs + board.outputs;
        let idle_output = outputs.any(|o| leads(self.before, o) && by_b_alone(&o));

        let matrix = Matrix::new(board, self.before, order);
        let mut rows = matrix.row(a).iter().zip(matrix.row(b));
        let joined = rows.find(|(&of_a, _)| of_a != NONE);
        let out_of_range = joined.is_some_and(|(of_a, of_b)| !Board::in_range(of_b - of_a));

        let two = arcs == 2;
        [
            two && accepted && went.iter().all(by_b_alone),
            two && accepted && !went.iter().all(by_b_alone),
            two && accepted && went.iter().all(undriven),
            two && accepted && idle_output,
            two && saved_nothing,
            two && saved_nothing && idle_output,
            two && saved_nothing && out_of_range,
            two && self.number == refusal::NEW_DELAY,
            arcs == 1 && saved_nothing && some_would_go,
            arcs > 2 && accepted && some_would_go,
        ]
    }
}
