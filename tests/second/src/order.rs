//! The order of the vertices along the arcs, and whether a path leads from one to another.

use crate::board::Board;

/// All vertices, each after those that have an arc to it; none if there is a cycle.
pub fn topological(board: &Board, table: &[i32]) -> Option<Vec<usize>> {
    let mut waiting_for = [0u32; Board::MOST_VERTICES];
    for row in board.rows(table) {
        for (count, &cell) in waiting_for.iter_mut().zip(row) {
            *count += u32::from(cell != Board::ABSENT);
        }
    }
    let mut order = Vec::with_capacity(board.vertices);
    order.extend((0..board.vertices).filter(|&v| waiting_for[v] == 0));
    let mut done = 0;
    while done < order.len() {
        for (v, _) in board.arcs_out(table, order[done]) {
            waiting_for[v] -= 1;
            if waiting_for[v] == 0 {
                order.push(v);
            }
        }
        done += 1;
    }
    (order.len() == board.vertices).then_some(order)
}

/// Whether a path of one or more arcs leads from `from` to `to`.
pub fn path_leads(board: &Board, table: &[i32], from: usize, to: usize) -> bool {
    let mut seen = [false; Board::MOST_VERTICES];
    let mut open = Vec::with_capacity(board.vertices);
    open.push(from);
    while let Some(u) = open.pop() {
        for (v, _) in board.arcs_out(table, u) {
            if v == to {
                return true;
            }
            if !seen[v] {
                seen[v] = true;
                open.push(v);
            }
        }
    }
    false
}
