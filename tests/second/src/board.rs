//! A board: its sizes and limits, its table's arcs, and checks 1 to 6.

use crate::order;
use crate::refusal::{self, Refusal};

/// m, n and N as a caller states them.
#[derive(Clone, Copy, Debug, PartialEq, Eq)]
pub struct Sizes {
    pub inputs: u64,
    pub outputs: u64,
    pub vertices: u64,
}

/// Sizes within the limits. Vertices are the inputs, then the outputs, then the inner ones.
#[derive(Clone, Copy, Debug, PartialEq, Eq)]
pub struct Board {
    pub inputs: usize,
    pub outputs: usize,
    pub vertices: usize,
}

impl Board {
    pub const MOST_VERTICES: usize = 90;
    pub const LEAST_DELAY: i64 = -1_000_000_000;
    pub const MOST_DELAY: i64 = 1_000_000_000;
    /// The cells of scratch that a call may use for each vertex.
    pub const SCRATCH_PER_VERTEX: usize = 4;
    /// The cell of an arc that isn't there.
    pub const ABSENT: i32 = i32::MIN;

    /// Check 1.
    pub fn new(sizes: Sizes) -> Result<Board, Refusal> {
        let Sizes { inputs, outputs, vertices } = sizes;
        let ends = inputs.checked_add(outputs).ok_or(refusal::SIZES)?;
        if inputs < 1 || outputs < 1 || ends > vertices || vertices > Self::MOST_VERTICES as u64 {
            return Err(refusal::SIZES);
        }
        Ok(Board {
            inputs: inputs as usize,
            outputs: outputs as usize,
            vertices: vertices as usize,
        })
    }

    /// Checks 1 to 3, on the lengths of what is lent.
    pub fn lent(sizes: Sizes, table: usize, scratch: usize) -> Result<Board, Refusal> {
        let board = Board::new(sizes)?;
        if table < board.cells() {
            return Err(refusal::SHORT_TABLE);
        }
        if scratch < board.scratch_cells() {
            return Err(refusal::SHORT_SCRATCH);
        }
        Ok(board)
    }

    /// Checks 1 to 6. An accepted table comes with a topological order of its vertices.
    pub fn open(
        sizes: Sizes,
        table: &[i32],
        scratch: usize,
    ) -> Result<(Board, Vec<usize>), Refusal> {
        let board = Board::lent(sizes, table.len(), scratch)?;
        let odd = |&&cell: &&i32| cell != Self::ABSENT && !Self::in_range(cell.into());
        // to count them all is faster than to stop at the first
        if table[..board.cells()].iter().filter(odd).count() > 0 {
            return Err(refusal::CELL);
        }
        let order = board.check_arcs(table)?;
        Ok((board, order))
    }

    /// Checks 5 and 6.
    pub fn check_arcs(&self, table: &[i32]) -> Result<Vec<usize>, Refusal> {
        let into_input = |row: &[i32]| row[..self.inputs].iter().any(|&cell| cell != Self::ABSENT);
        if self.rows(table).any(into_input) {
            return Err(refusal::ARC_INTO_INPUT);
        }
        order::topological(self, table).ok_or(refusal::CYCLE)
    }

    pub fn in_range(delay: i64) -> bool {
        (Self::LEAST_DELAY..=Self::MOST_DELAY).contains(&delay)
    }

    /// A sum or difference as the delay of a new arc.
    pub fn new_delay(delay: i64) -> Result<i32, Refusal> {
        if Self::in_range(delay) {
            Ok(delay as i32)
        } else {
            Err(refusal::NEW_DELAY)
        }
    }

    /// The cells of the table that count.
    pub fn cells(&self) -> usize {
        self.vertices * self.vertices
    }

    /// The cells of the scratch that count: on boards of 2 and 3 vertices more than the table's.
    pub fn scratch_cells(&self) -> usize {
        Self::SCRATCH_PER_VERTEX * self.vertices
    }

    pub fn rows<'t>(&self, table: &'t [i32]) -> impl Iterator<Item = &'t [i32]> {
        table[..self.cells()].chunks_exact(self.vertices)
    }

    /// The cells of the arcs out of `u`, one for each target.
    pub fn row<'t>(&self, table: &'t [i32], u: usize) -> &'t [i32] {
        &table[self.vertices * u..][..self.vertices]
    }

    pub fn row_mut<'t>(&self, table: &'t mut [i32], u: usize) -> &'t mut [i32] {
        &mut table[self.vertices * u..][..self.vertices]
    }

    /// The arcs out of `u`: target and delay.
    pub fn arcs_out<'t>(
        &self,
        table: &'t [i32],
        u: usize,
    ) -> impl Iterator<Item = (usize, i32)> + 't {
        present(self.row(table, u).iter())
    }

    /// The arcs into `v`: source and delay.
    pub fn arcs_in<'t>(
        &self,
        table: &'t [i32],
        v: usize,
    ) -> impl Iterator<Item = (usize, i32)> + 't {
        present(table[v..self.cells()].iter().step_by(self.vertices))
    }

    /// An arc falls on u→v: of two there the larger delay stays.
    pub fn lay_arc(&self, table: &mut [i32], u: usize, v: usize, delay: i32) {
        let cell = &mut table[self.vertices * u + v];
        // the absent mark is below every delay
        *cell = delay.max(*cell);
    }

    pub fn remove_arcs_in(&self, table: &mut [i32], v: usize) {
        for cell in table[v..self.cells()].iter_mut().step_by(self.vertices) {
            *cell = Self::ABSENT;
        }
    }

    pub fn remove_arcs_out(&self, table: &mut [i32], u: usize) {
        self.row_mut(table, u).fill(Self::ABSENT);
    }

    /// The arcs of the whole table.
    pub fn arcs(&self, table: &[i32]) -> u64 {
        present(table[..self.cells()].iter()).count() as u64
    }

    pub fn in_use(&self, table: &[i32], v: usize) -> bool {
        self.arcs_out(table, v).next().is_some() || self.arcs_in(table, v).next().is_some()
    }

    /// A vertex number below N, else 7.
    pub fn vertex(&self, number: u64) -> Result<usize, Refusal> {
        if number < self.vertices as u64 {
            Ok(number as usize)
        } else {
            Err(refusal::VERTEX)
        }
    }

    /// An input, else 7.
    pub fn input(&self, number: u64) -> Result<usize, Refusal> {
        let v = self.vertex(number)?;
        if v < self.inputs {
            Ok(v)
        } else {
            Err(refusal::VERTEX)
        }
    }

    /// An output, else 7.
    pub fn output(&self, number: u64) -> Result<usize, Refusal> {
        let v = self.vertex(number)?;
        if self.inputs <= v && !self.is_inner(v) {
            Ok(v)
        } else {
            Err(refusal::VERTEX)
        }
    }

    /// An inner vertex, else 7.
    pub fn inner(&self, number: u64) -> Result<usize, Refusal> {
        let v = self.vertex(number)?;
        if self.is_inner(v) {
            Ok(v)
        } else {
            Err(refusal::VERTEX)
        }
    }

    pub fn is_inner(&self, v: usize) -> bool {
        v >= self.inputs + self.outputs
    }

    /// The least inner number not in use.
    pub fn free_number(&self, table: &[i32]) -> Option<usize> {
        (self.inputs + self.outputs..self.vertices).find(|&k| !self.in_use(table, k))
    }

    /// A vertex below N as the new number of a step: inner and not in use, else 8.
    pub fn new_number(&self, table: &[i32], k: usize) -> Result<usize, Refusal> {
        if self.is_inner(k) && !self.in_use(table, k) {
            Ok(k)
        } else {
            Err(refusal::NEW_NUMBER)
        }
    }
}

/// The places of a run of cells that hold a delay, with it.
fn present<'t>(cells: impl Iterator<Item = &'t i32>) -> impl Iterator<Item = (usize, i32)> {
    cells.copied().enumerate().filter(|&(_, cell)| cell != Board::ABSENT)
}
