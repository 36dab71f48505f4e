//! Blocks: boards where some vertices have arcs to all of some later ones, of delays that are sums or
//! nearly: for stars that runs make, and for some that they can't.

use crate::boards::Star;
use crate::rng::Rng;
use second::board::Board;

/// A board under work: arcs lead from earlier to later vertices of `order`. Each vertex has a time, and an
/// arc lasts from the one end's to the other's, or about so long.
struct Draft {
    /// How many times the inner vertices and arcs of a small board it has.
    scale: usize,
    board: Board,
    order: Vec<usize>,
    times: Vec<i64>,
    table: Vec<i32>,
    /// Sources that have arcs to their block's targets alone.
    leads: Vec<usize>,
}

impl Draft {
    fn new(rng: &mut Rng) -> Draft {
        // few inputs and outputs, since a run tries all pairs of them
        let scale = if rng.chance(15) { 16 } else { 1 };
        let (inputs, outputs) = (2 + rng.below(4), 2 + rng.below(4));
        let (ends, free) = (inputs + outputs, if rng.chance(85) { 1 + rng.below(3) } else { 0 });
        let used = (scale * rng.below(6)).min(Board::MOST_VERTICES - ends - free);
        let vertices = ends + used + free;
        let board = Board { inputs, outputs, vertices };
        let mut inner: Vec<usize> = (ends..vertices).collect();
        rng.shuffle(&mut inner);
        inner.truncate(used);
        let mut later: Vec<usize> = inner.into_iter().chain(inputs..ends).collect();
        if rng.chance(30) {
            rng.shuffle(&mut later);
        }
        let order: Vec<usize> = (0..inputs).chain(later).collect();
        let spread = rng.pick(&[0, 2, 9, 9]);
        let times = (0..vertices).map(|_| rng.within(-spread, spread)).collect();
        let table = vec![Board::ABSENT; board.cells()];
        Draft { scale, board, order, times, table, leads: Vec::new() }
    }

    /// An arc so much longer than the times say.
    fn join_off(&mut self, u: usize, v: usize, off: i64) {
        let delay = self.times[v] - self.times[u] + off;
        if Board::in_range(delay) && !self.leads.contains(&u) {
            self.table[self.board.vertices * u + v] = delay as i32;
        }
    }

    /// Arcs into each vertex that isn't an input.
    fn lay_net(&mut self, rng: &mut Rng) {
        for place in self.board.inputs..self.order.len() {
            let v = self.order[place];
            let count = rng.pick(&[0, 1, 2, 2]);
            for u in some(rng, &self.order[..place], count) {
                self.join_off(u, v, rng.within(-9, 0));
            }
        }
    }

    fn lay_block(&mut self, rng: &mut Rng) -> Star {
        let inputs = self.board.inputs;
        let cut = inputs + rng.below(self.order.len() - inputs - 1);
        let (high, wide) = (self.scale * (2 + rng.below(4)), self.scale * (2 + rng.below(4)));
        let sources = some(rng, &self.order[..cut], high);
        let targets = some(rng, &self.order[cut..], wide);
        if rng.chance(35) {
            self.set_apart(rng, &sources);
        }
        let leads = rng.pick(&[1, 1, 1, 2]);
        for &lead in &sources[..leads] {
            if !self.leads.contains(&lead) {
                self.board.remove_arcs_out(&mut self.table, lead);
            }
        }
        for (place, &s) in sources.iter().enumerate() {
            self.lay_row(rng, place < leads, s, &targets);
        }
        self.leads.extend(&sources[..leads]);
        (sources, targets)
    }

    /// Sources get times whose differences are in range, or not.
    fn set_apart(&mut self, rng: &mut Rng, sources: &[usize]) {
        let half = Board::MOST_DELAY / 2;
        for &s in sources {
            let far = rng.pick(&[half, half + 1, half + 50]);
            self.times[s] = rng.pick(&[far, -far, 0]);
        }
    }

    /// Arcs of one source to the targets: sums, at times with some longer, one shorter, or one missing.
    fn lay_row(&mut self, rng: &mut Rng, is_exact: bool, s: usize, targets: &[usize]) {
        let odd = if is_exact { 0 } else { rng.below(10) };
        let one = rng.pick(targets);
        for &t in targets {
            let off = match odd {
                5..=7 if rng.chance(40) => rng.within(1, 6),
                8 if t == one => rng.within(-6, -1),
                _ => 0,
            };
            if odd != 9 || t != one {
                self.join_off(s, t, off);
            }
        }
    }

    /// An arc from any vertex, by which rows of a block may differ.
    fn lay_other(&mut self, rng: &mut Rng) {
        let place = self.board.inputs + rng.below(self.order.len() - self.board.inputs);
        let u = self.order[rng.below(place)];
        self.join_off(u, self.order[place], rng.within(0, 9));
    }
}

/// So many vertices of a part of the order, if it has them.
fn some(rng: &mut Rng, part: &[usize], count: usize) -> Vec<usize> {
    let mut some = part.to_vec();
    rng.shuffle(&mut some);
    some.truncate(count);
    some
}

/// A board that passes the checks, with its blocks.
pub fn board(rng: &mut Rng) -> (Board, Vec<i32>, Vec<Star>) {
    let mut draft = Draft::new(rng);
    draft.lay_net(rng);
    let blocks = (0..1 + rng.below(3)).map(|_| draft.lay_block(rng)).collect();
    for _ in 0..draft.scale * rng.below(6) {
        draft.lay_other(rng);
    }
    (draft.board, draft.table, blocks)
}
