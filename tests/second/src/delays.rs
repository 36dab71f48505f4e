//! Path delays: the delay matrix and the output arrivals.

use crate::board::{Board, Sizes};
use crate::refusal::{self, Refusal};

/// No path, or no signal.
pub const NONE: i64 = i64::MIN;

/// Present arrivals and required times lie within plus and minus this.
pub const MOST_TIME: i64 = 1_000_000_000_000;

/// An arrival or a required time as a caller may give it: absent, or within the limits.
pub fn is_time(&time: &i64) -> bool {
    time == NONE || (-MOST_TIME..=MOST_TIME).contains(&time)
}

/// The greatest delay from each input to each vertex, 0 from an input to itself.
pub struct FromInputs {
    inputs: usize,
    /// A row for each vertex, a cell in it for each input.
    cells: Vec<i64>,
}

impl FromInputs {
    pub fn new(board: &Board, table: &[i32], order: &[usize]) -> FromInputs {
        let inputs = board.inputs;
        let mut cells = vec![NONE; board.vertices * inputs];
        for i in 0..inputs {
            cells[i * inputs + i] = 0;
        }
        let mut at_u = [NONE; Board::MOST_VERTICES];
        let at_u = &mut at_u[..inputs];
        for &u in order {
            at_u.copy_from_slice(&cells[u * inputs..][..inputs]);
            for (v, delay) in board.arcs_out(table, u) {
                let at_v = &mut cells[v * inputs..][..inputs];
                for (to, &from) in at_v.iter_mut().zip(at_u.iter()) {
                    if from != NONE {
                        *to = (*to).max(from + i64::from(delay));
                    }
                }
            }
        }
        FromInputs { inputs, cells }
    }

    /// The delays from every input to `v`.
    pub fn to(&self, v: usize) -> &[i64] {
        &self.cells[v * self.inputs..][..self.inputs]
    }
}

/// The delay matrix, M.
pub struct Matrix {
    outputs: usize,
    cells: Vec<i64>,
}

impl Matrix {
    pub fn new(board: &Board, table: &[i32], order: &[usize]) -> Matrix {
        let delays = FromInputs::new(board, table, order);
        let mut cells = Vec::with_capacity(board.inputs * board.outputs);
        for i in 0..board.inputs {
            cells.extend((0..board.outputs).map(|j| delays.to(board.inputs + j)[i]));
        }
        Matrix { outputs: board.outputs, cells }
    }

    /// Row by row, `NONE` where the pair is unjoined.
    pub fn cells(&self) -> &[i64] {
        &self.cells
    }

    pub fn row(&self, i: usize) -> &[i64] {
        &self.cells[i * self.outputs..][..self.outputs]
    }

    pub fn column(&self, j: usize) -> impl Iterator<Item = &i64> {
        self.cells[j..].iter().step_by(self.outputs)
    }
}

pub fn matrix(
    sizes: Sizes,
    table: &[i32],
    scratch: usize,
    destination: &mut [i64],
) -> Result<(), Refusal> {
    let (board, order) = Board::open(sizes, table, scratch)?;
    let length = board.inputs * board.outputs;
    if destination.len() < length {
        return Err(refusal::SHORT_DESTINATION);
    }
    let matrix = Matrix::new(&board, table, &order);
    destination[..length].copy_from_slice(matrix.cells());
    Ok(())
}

pub fn arrivals(
    sizes: Sizes,
    table: &[i32],
    scratch: usize,
    arrivals: &[i64],
    answers: &mut [i64],
) -> Result<(), Refusal> {
    let (board, order) = Board::open(sizes, table, scratch)?;
    if arrivals.len() != board.inputs
        || !arrivals.iter().all(is_time)
        || answers.len() != board.outputs
    {
        return Err(refusal::TIMES);
    }
    let matrix = Matrix::new(&board, table, &order);
    for (j, answer) in answers.iter_mut().enumerate() {
        *answer = arrivals
            .iter()
            .zip(matrix.column(j))
            .filter(|&(&arrival, &delay)| arrival != NONE && delay != NONE)
            .map(|(arrival, delay)| arrival + delay)
            .max()
            .unwrap_or(NONE);
    }
    Ok(())
}
