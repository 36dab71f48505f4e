//! Find the star: of the vertices whose star would be accepted, the one whose star saves most.

use crate::board::{Board, Sizes};
use crate::refusal::Refusal;
use crate::steps;

/// The vertex, and the arcs covered by its star less those that the star lays.
#[derive(Clone, Copy, Debug, PartialEq, Eq)]
pub struct Found {
    pub vertex: u64,
    pub saving: u64,
}

/// A star that would be accepted, as it is to be called.
pub struct Candidate {
    pub vertex: usize,
    pub sources: Vec<usize>,
    pub targets: Vec<usize>,
    pub new: usize,
    pub saving: usize,
}

pub fn find_star(sizes: Sizes, table: &[i32], scratch: usize) -> Result<Option<Found>, Refusal> {
    let (board, _) = Board::open(sizes, table, scratch)?;
    let found = |best: Candidate| Found { vertex: best.vertex as u64, saving: best.saving as u64 };
    Ok(best(&board, table).map(found))
}

/// The candidate of the largest saving, the first of those that save as much.
pub fn best(board: &Board, table: &[i32]) -> Option<Candidate> {
    let new = board.free_number(table)?;
    let mut best: Option<Candidate> = None;
    for candidate in (0..board.vertices).filter_map(|a| candidate(board, table, a, new)) {
        if best.as_ref().is_none_or(|best| candidate.saving > best.saving) {
            best = Some(candidate);
        }
    }
    best
}

/// The star of `a`, if `a` has arcs out and star accepts it.
fn candidate(board: &Board, table: &[i32], a: usize, new: usize) -> Option<Candidate> {
    let targets: Vec<usize> = board.arcs_out(table, a).map(|(t, _)| t).collect();
    if targets.is_empty() {
        return None;
    }
    let leads_to_all = |&s: &usize| {
        let row = board.row(table, s);
        targets.iter().all(|&t| row[t] != Board::ABSENT)
    };
    let others = (0..board.vertices).filter(|&s| s != a).filter(leads_to_all);
    let sources: Vec<usize> = [a].into_iter().chain(others).collect();
    let covered = steps::plan_star(board, table, &sources, &targets).ok()?.covered;
    let saving = covered - (sources.len() + targets.len());
    Some(Candidate { vertex: a, sources, targets, new, saving })
}
