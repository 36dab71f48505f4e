//! Demand 3 and ticket 1's least margin, on the second implementation, by methods of its own: path
//! delays and times by relaxing all arcs until nothing changes, cycles by taking away vertices without
//! arcs out.

use crate::calls::{Accepted, Answer, Call};
use crate::rng::Rng;
use crate::{libraries, lists};
use second::board::{Board, Sizes};
use second::find_star::find_star;
use second::margins::{self, Answers};
use second::{delays, file};

/// What the first table of a list promises for every later one.
pub struct Claim {
    board: Board,
    sizes: Sizes,
    matrix: Vec<Option<i64>>,
    /// Lists of input arrivals, each with the output arrivals.
    arrivals: Vec<(Vec<i64>, Vec<i64>)>,
    margins: Vec<LeastMargin>,
    arcs: u64,
    accepted: u64,
}

/// A list of input arrivals and one of required times, with the least margin for them.
struct LeastMargin {
    arrivals: Vec<i64>,
    required: Vec<i64>,
    least: Option<i64>,
}

impl Claim {
    /// The claim that a table starts, if it passes checks 1, 2, 4, 5 and 6.
    pub fn new(rng: &mut Rng, sizes: Sizes, table: &[i32]) -> Option<Claim> {
        let (board, _) = Board::open(sizes, table, usize::MAX).ok()?;
        let matrix = slow_matrix(&board, table);
        let arrivals = (0..2)
            .map(|_| {
                let inputs = lists::times(rng, board.inputs);
                let outputs = slow_arrivals(&board, &matrix, &inputs);
                (inputs, outputs)
            })
            .collect();
        let margins = (0..3)
            .map(|_| {
                let arrivals = lists::times(rng, board.inputs);
                let required = lists::times(rng, board.outputs);
                let least = slow_least_margin(&matrix, &arrivals, &required);
                LeastMargin { arrivals, required, least }
            })
            .collect();
        let arcs = board.arcs(table);
        Some(Claim { board, sizes, matrix, arrivals, margins, arcs, accepted: 0 })
    }

    /// After a call: the table as it left it.
    pub fn check(
        &mut self,
        rng: &mut Rng,
        call: &Call,
        answer: Answer,
        table: &[i32],
    ) -> Result<(), String> {
        let board = &self.board;
        if !is_acyclic(board, table) {
            return Err("demand 3: a cycle".into());
        }
        if slow_matrix(board, table) != self.matrix {
            return Err("demand 3: another matrix".into());
        }
        self.check_queries(table)?;
        self.check_margins(table)?;
        let arcs = present(board, table);
        match answer {
            Answer::Accepted(Accepted::Left(left)) => {
                self.accepted += 1;
                if left != arcs {
                    return Err(format!("{left} arcs answered, {arcs} present"));
                }
            }
            Answer::Accepted(Accepted::Ran(ran)) => {
                self.accepted += ran.outcome.steps;
                if ran.outcome.arcs != arcs {
                    return Err(format!("{} arcs answered, {arcs} present", ran.outcome.arcs));
                }
            }
            _ => {}
        }
        if arcs + self.accepted > self.arcs {
            return Err(format!(
                "demand 3: {arcs} arcs and {} steps, from {} arcs",
                self.accepted, self.arcs
            ));
        }
        if matches!(call, Call::Run) && matches!(answer, Answer::Accepted(_)) {
            self.check_end_of_run(rng, table)?;
        }
        self.check_round_trip(table, &libraries::sound(rng))
    }

    /// The two calls that answer path delays agree with the slow method.
    fn check_queries(&self, table: &[i32]) -> Result<(), String> {
        let scratch = self.board.scratch_cells();
        let mut matrix = vec![0; self.matrix.len()];
        let answer = delays::matrix(self.sizes, table, scratch, &mut matrix);
        let expected: Vec<i64> = self.matrix.iter().map(|d| d.unwrap_or(delays::NONE)).collect();
        if answer.is_err() || matrix != expected {
            return Err("the matrix call and the slow method differ".into());
        }
        for (inputs, outputs) in &self.arrivals {
            let mut answers = vec![0; outputs.len()];
            let answer = delays::arrivals(self.sizes, table, scratch, inputs, &mut answers);
            if answer.is_err() || answers != *outputs {
                return Err("demand 3: other output arrivals".into());
            }
        }
        Ok(())
    }

    /// The margins call agrees with the slow method at every vertex, and its least margin is the one that
    /// the first matrix gives, which is this table's too.
    fn check_margins(&self, table: &[i32]) -> Result<(), String> {
        let board = &self.board;
        let scratch = board.scratch_cells();
        for LeastMargin { arrivals, required, least } in &self.margins {
            let mut cells = [(); 3].map(|()| vec![0; board.vertices]);
            let [arrival_at, required_at, margin_at] = &mut cells;
            let lent = Answers { arrival: arrival_at, required: required_at, margin: margin_at };
            let answer = margins::margins(self.sizes, table, scratch, arrivals, required, lent);
            if answer.is_err() || cells != slow_margins(board, table, arrivals, required) {
                return Err("the margins call and the slow method differ".into());
            }
            if margins::least(&cells[2]) != *least {
                return Err("ticket 1: another least margin".into());
            }
        }
        Ok(())
    }

    /// After a run its five steps are refused, every choice on small boards, some on large ones, and no
    /// star is found.
    fn check_end_of_run(&self, rng: &mut Rng, table: &[i32]) -> Result<(), String> {
        let end = self.board.vertices as u64 + 1;
        let mut copy = table.to_vec();
        let mut refused = |call: Call| match call
            .perform(self.sizes, &mut copy, self.board.scratch_cells(), &mut [])
            .answer
        {
            Answer::Accepted(_) => Err(format!("demand 3: after a run {call:?} is accepted")),
            _ => Ok(()),
        };
        if find_star(self.sizes, table, self.board.scratch_cells()) != Ok(None) {
            return Err("demand 3: after a run a star is found".into());
        }
        refused(Call::Prune)?;
        for v in 0..end {
            refused(Call::Shrink { k: v })?;
            refused(Call::MergeBack { o: v })?;
        }
        if end <= 9 {
            for (a, b) in (0..end).flat_map(|a| (0..end).map(move |b| (a, b))) {
                refused(Call::ShareOutputs { a, b })?;
                for k in 0..end {
                    refused(Call::ShareInputs { a, b, k })?;
                }
            }
        } else {
            for _ in 0..100 {
                let a = rng.below(self.board.inputs) as u64;
                let b = rng.below(self.board.inputs) as u64;
                let k = rng.next() % end;
                refused(Call::ShareInputs { a, b, k })?;
                let a = (self.board.inputs + rng.below(self.board.outputs)) as u64;
                let b = (self.board.inputs + rng.below(self.board.outputs)) as u64;
                refused(Call::ShareOutputs { a, b })?;
            }
        }
        Ok(())
    }

    /// A written file reads back as the same table, whatever the library.
    fn check_round_trip(&self, table: &[i32], library: &[i32]) -> Result<(), String> {
        let (cells, scratch) = (self.board.cells(), self.board.scratch_cells());
        let mut bytes = vec![0; 9 + 8 * present(&self.board, table) as usize];
        let written = file::write(self.sizes, table, scratch, &mut bytes);
        if written != Ok(bytes.len() as u64) {
            return Err(format!("the writer answers {written:?}"));
        }
        let mut copy = vec![0; cells];
        let read = file::read(&bytes, &mut copy, scratch, library);
        if read != Ok(self.sizes) || copy != table[..cells] {
            return Err(format!("a written file reads back otherwise: {read:?}"));
        }
        Ok(())
    }
}

fn present(board: &Board, table: &[i32]) -> u64 {
    table[..board.cells()].iter().filter(|&&cell| cell != i32::MIN).count() as u64
}

/// Takes away vertices without arcs to what is left, until none goes.
fn is_acyclic(board: &Board, table: &[i32]) -> bool {
    let size = board.vertices;
    let mut left = vec![true; size];
    loop {
        let ends = |left: &[bool], u: usize| {
            left[u] && (0..size).all(|v| !left[v] || table[size * u + v] == i32::MIN)
        };
        let Some(end) = (0..size).find(|&u| ends(&left, u)) else { break };
        left[end] = false;
    }
    !left.contains(&true)
}

#[derive(Clone, Copy)]
enum Way {
    Along,
    Against,
}

/// The greatest sum of what a vertex starts with and the delays of the arcs from it, along them or
/// against them, in a table without cycles: by relaxing all arcs until nothing changes.
fn relaxed(board: &Board, table: &[i32], way: Way, mut best: Vec<Option<i64>>) -> Vec<Option<i64>> {
    let size = board.vertices;
    let mut changed = true;
    while changed {
        changed = false;
        for (place, &cell) in table[..size * size].iter().enumerate() {
            let (from, to) = match way {
                Way::Along => (place / size, place % size),
                Way::Against => (place % size, place / size),
            };
            if let (Some(at), true) = (best[from], cell != i32::MIN) {
                let through = Some(at + i64::from(cell));
                if through > best[to] {
                    best[to] = through;
                    changed = true;
                }
            }
        }
    }
    best
}

fn slow_matrix(board: &Board, table: &[i32]) -> Vec<Option<i64>> {
    let mut matrix = Vec::new();
    for i in 0..board.inputs {
        let mut start = vec![None; board.vertices];
        start[i] = Some(0);
        let best = relaxed(board, table, Way::Along, start);
        matrix.extend(&best[board.inputs..board.inputs + board.outputs]);
    }
    matrix
}

fn slow_arrivals(board: &Board, matrix: &[Option<i64>], inputs: &[i64]) -> Vec<i64> {
    let mut outputs = vec![i64::MIN; board.outputs];
    for (i, &arrival) in inputs.iter().enumerate() {
        for (j, output) in outputs.iter_mut().enumerate() {
            if let (Some(delay), true) = (matrix[i * board.outputs + j], arrival != i64::MIN) {
                *output = (*output).max(arrival + delay);
            }
        }
    }
    outputs
}

/// Arrival, required time and margin at every vertex. Required times with their signs turned are
/// arrivals against the arcs.
fn slow_margins(board: &Board, table: &[i32], arrivals: &[i64], required: &[i64]) -> [Vec<i64>; 3] {
    let (mut starts, mut ends) = (vec![None; board.vertices], vec![None; board.vertices]);
    for (i, &arrival) in arrivals.iter().enumerate() {
        starts[i] = known(arrival);
    }
    for (j, &time) in required.iter().enumerate() {
        ends[board.inputs + j] = known(time).map(|time| -time);
    }
    let starts = relaxed(board, table, Way::Along, starts);
    let ends = relaxed(board, table, Way::Against, ends);
    let mut answers = [(); 3].map(|()| vec![i64::MIN; board.vertices]);
    for (v, (&start, &end)) in starts.iter().zip(&ends).enumerate() {
        if let Some(arrival) = start {
            answers[0][v] = arrival;
        }
        if let Some(time) = end {
            answers[1][v] = -time;
        }
        if let (Some(arrival), Some(time)) = (start, end) {
            answers[2][v] = -time - arrival;
        }
    }
    answers
}

/// The least margin by the matrix alone: a joined pair's required time less arrival and delay.
fn slow_least_margin(matrix: &[Option<i64>], arrivals: &[i64], required: &[i64]) -> Option<i64> {
    let mut least = None;
    for (i, &arrival) in arrivals.iter().enumerate() {
        for (j, &time) in required.iter().enumerate() {
            let delay = matrix[i * required.len() + j];
            if let (Some(arrival), Some(time), Some(delay)) = (known(arrival), known(time), delay) {
                let margin = time - arrival - delay;
                least = Some(least.map_or(margin, |least: i64| least.min(margin)));
            }
        }
    }
    least
}

fn known(time: i64) -> Option<i64> {
    (time != i64::MIN).then_some(time)
}
