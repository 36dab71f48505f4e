//! Ladders: boards whose runs take many rounds, since each share opens the next one.

use crate::rng::Rng;
use second::board::Board;

/// A ladder under work. Each vertex has a time, and an arc lasts from the one end's to the other's: all
/// arcs decide, and rows and columns that are joined alike differ by one number.
struct Ladder {
    board: Board,
    times: Vec<i64>,
    table: Vec<i32>,
}

impl Ladder {
    fn new(rng: &mut Rng, inputs: usize, outputs: usize, inner: usize) -> Ladder {
        let vertices = inputs + outputs + inner;
        let spread = rng.pick(&[2, 9, 9, 9, Board::MOST_DELAY / 3]);
        let board = Board { inputs, outputs, vertices };
        let times = (0..vertices).map(|_| rng.within(-spread, spread)).collect();
        Ladder { board, times, table: vec![Board::ABSENT; board.cells()] }
    }

    fn inputs(&self) -> Vec<usize> {
        (0..self.board.inputs).collect()
    }

    fn outputs(&self) -> Vec<usize> {
        (self.board.inputs..self.board.inputs + self.board.outputs).collect()
    }

    /// The inner vertices in any order.
    fn inner(&self, rng: &mut Rng) -> Vec<usize> {
        let mut inner: Vec<usize> = (0..self.board.vertices).collect();
        inner.retain(|&v| self.board.is_inner(v));
        rng.shuffle(&mut inner);
        inner
    }

    fn join(&mut self, u: usize, v: usize) {
        self.join_off(u, v, 0);
    }

    /// An arc that is longer than the times say.
    fn join_off(&mut self, u: usize, v: usize, off: i64) {
        let delay = self.times[v] - self.times[u] + off;
        if Board::in_range(delay) {
            self.table[self.board.vertices * u + v] = delay as i32;
        }
    }

    /// Times so far apart that no step can be merged back into its output.
    fn set_apart(&mut self, steps: &[usize], outputs: &[usize]) {
        const APART: i64 = Board::MOST_DELAY / 20;
        let mut time = -10 * APART;
        for (&step, &output) in steps.iter().zip(outputs) {
            self.times[step] = time;
            self.times[output] = time + Board::MOST_DELAY - APART / 2;
            time += APART;
        }
    }
}

/// A board that passes the checks.
pub fn board(rng: &mut Rng) -> (Board, Vec<i32>) {
    let mut ladder = if rng.chance(60) { share_inputs(rng) } else { share_outputs(rng) };
    for _ in 0..rng.below(3) {
        let u = rng.below(ladder.board.inputs);
        let v = ladder.board.inputs + rng.below(ladder.board.vertices - ladder.board.inputs);
        ladder.join_off(u, v, -rng.within(0, 50));
    }
    (ladder.board, ladder.table)
}

/// Each rung is an input that reaches the outputs over two steps, and each step serves two rungs. A
/// rung with three arcs is shared with the rail; its step, left with one arc in, is shrunk, which gives
/// the next rung its third arc.
fn share_inputs(rng: &mut Rng) -> Ladder {
    let (rungs, odd, outputs) = (2 + rng.below(4), rng.below(3), 3 + rng.below(3));
    let relays = if rng.chance(40) { rng.below(outputs + 1) } else { 0 };
    let inner = rungs - 1 + relays + rng.below(4);
    let mut ladder = Ladder::new(rng, 1 + rungs + odd, outputs, inner);
    let mut inner = ladder.inner(rng);
    let mut inputs = ladder.inputs();
    rng.shuffle(&mut inputs);

    // before some outputs a vertex for merge back
    let mut ends = ladder.outputs();
    for (end, relay) in ends.iter_mut().zip(inner.drain(..relays)) {
        ladder.join(relay, *end);
        *end = relay;
    }
    // rows that fit no other keep the outputs from being shared
    for input in inputs.drain(..odd) {
        for &end in &ends {
            ladder.join_off(input, end, rng.within(-5, 5));
        }
    }
    // the rail and the first rung
    for &input in &inputs[..2] {
        ends.iter().for_each(|&end| ladder.join(input, end));
    }
    let mut left = Vec::new();
    for (&step, rungs) in inner.iter().zip(inputs[1..].windows(2)) {
        // the ends that the step before doesn't reach, and others
        let reached = |end: &usize| left.contains(end) || rng.chance(50);
        let reached: Vec<usize> = ends.iter().copied().filter(reached).collect();
        rungs.iter().for_each(|&rung| ladder.join(rung, step));
        reached.iter().for_each(|&end| ladder.join(step, end));
        left = ends.clone();
        left.retain(|end| !reached.contains(end));
    }
    if let Some(&last) = inputs.last() {
        left.iter().for_each(|&end| ladder.join(last, end));
    }
    ladder
}

/// Every output hears of the inputs at its time after the rail, an output too. One with two arcs in is
/// shared; the step that drove it is left with one arc out and shrunk, which gives the next output two
/// arcs in.
fn share_outputs(rng: &mut Rng) -> Ladder {
    let (rungs, odd, inputs) = (1 + rng.below(5), rng.below(3), 2 + rng.below(3));
    let inner = rungs + rng.below(3);
    let mut ladder = Ladder::new(rng, inputs, 2 + rungs + odd, inner);
    let steps = &ladder.inner(rng)[..rungs];
    let mut outputs = ladder.outputs();
    if rng.chance(30) {
        rng.shuffle(&mut outputs);
    }
    // columns that fit no other keep the inputs from being shared
    for output in outputs.drain(..odd) {
        for input in ladder.inputs() {
            ladder.join_off(input, output, rng.within(-5, 5));
        }
    }
    let (rail, mut next, rest) = (outputs[0], outputs[1], &outputs[2..]);
    if rng.chance(60) {
        ladder.set_apart(steps, rest);
    }
    for input in ladder.inputs() {
        ladder.join(input, rail);
    }
    ladder.join(rng.below(inputs), next);
    for (&step, &output) in steps.iter().zip(rest) {
        ladder.join(step, next);
        ladder.join(step, output);
        ladder.join(rng.below(inputs), step);
        ladder.join(rail, step);
        next = step;
    }
    ladder
}
