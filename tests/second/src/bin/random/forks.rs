//! Forks: boards whose inputs mostly have two arcs out, behind which arcs go when they are shared.

use crate::rng::Rng;
use second::board::Board;
use second::order::path_leads;

/// A board under work: arcs lead from inputs to `order`, and in it from earlier to later vertices. Each
/// vertex has a time, and an arc lasts from the one end's to the other's, so that inputs which reach the
/// same outputs have rows that differ by one number.
struct Draft {
    board: Board,
    order: Vec<usize>,
    times: Vec<i64>,
    table: Vec<i32>,
}

impl Draft {
    fn new(rng: &mut Rng) -> Draft {
        let (inputs, outputs) = (2 + rng.below(3), 1 + rng.below(4));
        let (used, free) = (1 + rng.below(6), if rng.chance(90) { 1 + rng.below(3) } else { 0 });
        let ends = inputs + outputs;
        let vertices = ends + used + free;
        let board = Board { inputs, outputs, vertices };
        let mut order: Vec<usize> = (ends..vertices).collect();
        rng.shuffle(&mut order);
        order.truncate(used);
        order.extend(inputs..ends);
        if rng.chance(30) {
            rng.shuffle(&mut order);
        }
        // an output that only drives
        if outputs > 1 && rng.chance(50) {
            order.retain(|&v| v != inputs);
            order.insert(0, inputs);
        }

        let spread = rng.pick(&[0, 2, 9, 9]);
        let times = (0..vertices).map(|_| rng.within(-spread, spread)).collect();
        Draft { board, order, times, table: vec![Board::ABSENT; board.cells()] }
    }

    /// Two inputs get times so far apart that their difference is near the limit, or above it.
    fn set_apart(&mut self, rng: &mut Rng, inputs: [usize; 2]) {
        let far = rng.pick(&[Board::MOST_DELAY / 2, Board::MOST_DELAY - 20]);
        let side = rng.pick(&[1, -1]);
        self.times[inputs[0]] += side * far;
        self.times[inputs[1]] -= side * far;
    }

    fn join(&mut self, u: usize, v: usize) {
        self.join_off(u, v, 0);
    }

    /// An arc that is longer than the times say.
    fn join_off(&mut self, u: usize, v: usize, off: i64) {
        let delay = self.times[v] - self.times[u] + off;
        if Board::in_range(delay) {
            self.table[self.board.vertices * u + v] = delay as i32;
        }
    }

    fn leads(&self, u: usize, v: usize) -> bool {
        path_leads(&self.board, &self.table, u, v)
    }

    fn later(&self, rng: &mut Rng, place: usize) -> usize {
        self.order[place + 1 + rng.below(self.order.len() - place - 1)]
    }

    /// Arcs from inner vertices to later ones, from outputs few but for the first in order.
    fn lay_net(&mut self, rng: &mut Rng) {
        for place in 0..self.order.len() - 1 {
            let u = self.order[place];
            let many = self.board.is_inner(u) || place == 0 || rng.chance(20);
            for _ in 0..if many { 1 + rng.below(2) } else { 0 } {
                let v = self.later(rng, place);
                self.join(u, v);
            }
        }
    }

    /// Arcs out of an input, mostly two, mostly to inner vertices that nothing drives yet.
    fn lay_fork(&mut self, rng: &mut Rng, input: usize) {
        for _ in 0..rng.pick(&[2, 2, 2, 2, 2, 1, 3, 4]) {
            let mut targets = self.order.clone();
            targets.retain(|&v| self.table[self.board.vertices * input + v] == Board::ABSENT);
            let mut heads = targets.clone();
            heads.retain(|&v| {
                self.board.is_inner(v) && self.board.arcs_in(&self.table, v).next().is_none()
            });
            if !heads.is_empty() && rng.chance(60) {
                targets = heads;
            }
            if !targets.is_empty() {
                let v = rng.pick(&targets);
                self.join(input, v);
            }
        }
    }

    /// Arcs out of input a, until it reaches all outputs that b reaches, by the same vertices.
    fn follow(&mut self, rng: &mut Rng, a: usize, b: usize) {
        for j in self.board.inputs..self.board.inputs + self.board.outputs {
            if !self.leads(b, j) || self.leads(a, j) {
                continue;
            }
            let mut on_the_way = self.order.clone();
            on_the_way.retain(|&v| self.leads(b, v) && (v == j || self.leads(v, j)));
            let v = if rng.chance(50) { j } else { rng.pick(&on_the_way) };
            self.join(a, v);
        }
    }

    /// An arc that never decides where others lead, from anywhere.
    fn lay_short(&mut self, rng: &mut Rng) {
        let place = rng.below(self.order.len());
        let v = self.order[place];
        let from = rng.below(self.board.inputs + place);
        let u = if from < self.board.inputs { from } else { self.order[from - self.board.inputs] };
        self.join_off(u, v, -rng.within(0, 50));
    }
}

/// A board that passes the checks.
pub fn board(rng: &mut Rng) -> (Board, Vec<i32>) {
    let mut draft = Draft::new(rng);
    draft.lay_net(rng);
    let mut inputs: Vec<usize> = (0..draft.board.inputs).collect();
    rng.shuffle(&mut inputs);
    let (a, b) = (inputs[0], inputs[1]);
    if rng.chance(50) {
        draft.set_apart(rng, [a, b]);
    }
    draft.lay_fork(rng, b);
    draft.follow(rng, a, b);
    for &other in &inputs[2..] {
        if rng.chance(50) {
            draft.follow(rng, other, b);
        } else {
            draft.lay_fork(rng, other);
        }
    }
    if rng.chance(30) {
        draft.lay_short(rng);
    }
    (draft.board, draft.table)
}
