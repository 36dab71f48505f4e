//! Star: arcs from every source to every target go through one new vertex where their delays allow.

use crate::board::{Board, Sizes};
use crate::refusal::{self, Refusal};

pub fn star(
    sizes: Sizes,
    table: &mut [i32],
    scratch: usize,
    sources: &[u64],
    targets: &[u64],
    k: u64,
) -> Result<u64, Refusal> {
    let (board, _) = Board::open(sizes, table, scratch)?;
    let sources = below(&board, sources)?;
    let targets = below(&board, targets)?;
    let k = board.vertex(k)?;
    if !is_set(&sources) || !is_set(&targets) {
        return Err(refusal::LISTS);
    }
    let k = board.new_number(table, k)?;
    try_star(&board, table, &sources, &targets, k)?;
    Ok(board.arcs(table))
}

/// The delays of s→k, source by source, and of k→t, target by target, and how many arcs they cover.
pub struct Plan {
    to_k: Vec<i64>,
    from_k: Vec<i64>,
    pub covered: usize,
}

/// Refusals 10, 13 and 14 of a star over lists that repeat no vertex.
pub fn plan_star(
    board: &Board,
    table: &[i32],
    sources: &[usize],
    targets: &[usize],
) -> Result<Plan, Refusal> {
    let missing = |s: usize, t: usize| board.row(table, s)[t] == Board::ABSENT;
    if sources.iter().any(|&s| targets.iter().any(|&t| missing(s, t))) {
        return Err(refusal::SHAPE);
    }
    let delay = |s: usize, t: usize| i64::from(board.row(table, s)[t]);
    let from_k: Vec<i64> = targets.iter().map(|&t| delay(sources[0], t)).collect();
    let mut to_k = Vec::with_capacity(sources.len());
    let mut covered = 0;
    for &s in sources {
        let differences = || targets.iter().zip(&from_k).map(|(&t, &first)| delay(s, t) - first);
        let least = differences().fold(i64::MAX, i64::min);
        covered += differences().filter(|&difference| difference == least).count();
        to_k.push(least);
    }
    if covered <= sources.len() + targets.len() {
        return Err(refusal::NOTHING_SAVED);
    }
    for &delay in &to_k {
        Board::new_delay(delay)?;
    }
    Ok(Plan { to_k, from_k, covered })
}

pub fn try_star(
    board: &Board,
    table: &mut [i32],
    sources: &[usize],
    targets: &[usize],
    k: usize,
) -> Result<(), Refusal> {
    let Plan { to_k, from_k, .. } = plan_star(board, table, sources, targets)?;
    for (&s, &to_k) in sources.iter().zip(&to_k) {
        let row = board.row_mut(table, s);
        for (&t, &from_k) in targets.iter().zip(&from_k) {
            if i64::from(row[t]) == to_k + from_k {
                row[t] = Board::ABSENT;
            }
        }
        board.lay_arc(table, s, k, to_k as i32);
    }
    for (&t, &from_k) in targets.iter().zip(&from_k) {
        board.lay_arc(table, k, t, from_k as i32);
    }
    Ok(())
}

/// The numbers of a list as vertices, all below N, else 7.
fn below(board: &Board, list: &[u64]) -> Result<Vec<usize>, Refusal> {
    list.iter().map(|&number| board.vertex(number)).collect()
}

/// At least one vertex and none twice.
fn is_set(list: &[usize]) -> bool {
    let mut seen = [false; Board::MOST_VERTICES];
    !list.is_empty() && list.iter().all(|&v| !std::mem::replace(&mut seen[v], true))
}
