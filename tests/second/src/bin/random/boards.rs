//! Random boards: sizes, a table, and the shapes that steps look for.

use crate::rng::Rng;
use crate::{blocks, forks, ladders};
use second::board::{Board, Sizes};

/// The sources and the targets of a star.
pub type Star = (Vec<usize>, Vec<usize>);

/// What a list starts from.
pub struct Lent {
    pub sizes: Sizes,
    pub table: Vec<i32>,
    pub scratch: usize,
    /// The stars that were planted.
    pub stars: Vec<Star>,
}

#[derive(Clone, Copy)]
enum Delays {
    Small,
    Equal(i64),
    Negative,
    Few,
    Wide,
    /// Near the limits, both signs.
    Limits,
    /// Near the half of the limits, whose sums are near the limits.
    Halves,
}

impl Delays {
    fn any(rng: &mut Rng) -> Delays {
        match rng.below(13) {
            0..=3 => Delays::Small,
            4 => Delays::Equal(1),
            5 => Delays::Equal(0),
            6 => {
                let limit = rng.pick(&[Board::LEAST_DELAY, Board::MOST_DELAY, 500_000_000, -3, 7]);
                Delays::Equal(limit)
            }
            7 => Delays::Negative,
            8 | 9 => Delays::Few,
            10 => Delays::Wide,
            11 => Delays::Limits,
            _ => Delays::Halves,
        }
    }

    fn one(self, rng: &mut Rng) -> i64 {
        let sign = rng.pick(&[1, -1]);
        match self {
            Delays::Small => rng.within(-5, 20),
            Delays::Equal(delay) => delay,
            Delays::Negative => rng.within(-50, -1),
            Delays::Few => rng.within(0, 2),
            Delays::Wide => rng.within(Board::LEAST_DELAY, Board::MOST_DELAY),
            Delays::Limits => sign * (Board::MOST_DELAY - rng.within(0, 3)),
            Delays::Halves => sign * (Board::MOST_DELAY / 2 + rng.within(-2, 2)),
        }
    }
}

/// A board under work: its vertices stand in `order`, arcs lead from earlier to later ones. Those that
/// don't stand there get no arcs.
struct Draft {
    board: Board,
    order: Vec<usize>,
    table: Vec<i32>,
    delays: Delays,
}

impl Draft {
    fn put(&mut self, u: usize, v: usize, delay: i64) {
        if Board::in_range(delay) {
            self.table[self.board.vertices * u + v] = delay as i32;
        }
    }

    fn get(&self, u: usize, v: usize) -> Option<i64> {
        let cell = self.table[self.board.vertices * u + v];
        (cell != Board::ABSENT).then_some(cell.into())
    }

    /// Arcs that neither end in an input nor run against the order, so many in a hundred of all.
    fn join(&mut self, rng: &mut Rng, density: usize) {
        for first in 0..self.order.len() {
            for second in first + 1..self.order.len() {
                let (u, v) = (self.order[first], self.order[second]);
                if v >= self.board.inputs && rng.chance(density) {
                    let delay = self.delays.one(rng);
                    self.put(u, v, delay);
                }
            }
        }
    }

    fn place(&self, v: usize) -> usize {
        self.order.iter().position(|&w| w == v).unwrap_or(0)
    }

    /// u→v neither ends in an input nor runs against the order.
    fn fits(&self, u: usize, v: usize) -> bool {
        v >= self.board.inputs && self.place(u) < self.place(v)
    }

    fn output(&self, rng: &mut Rng) -> usize {
        self.board.inputs + rng.below(self.board.outputs)
    }

    fn inner(&self, rng: &mut Rng) -> Option<usize> {
        let inner: Vec<usize> =
            self.order.iter().copied().filter(|&v| self.board.is_inner(v)).collect();
        (!inner.is_empty()).then(|| rng.pick(&inner))
    }

    /// A number by which two rows or columns may differ; at times above the delays' limit.
    fn difference(&self, rng: &mut Rng) -> i64 {
        match rng.below(10) {
            0 => 0,
            1 => rng.pick(&[1, -1]) * (2 * Board::MOST_DELAY - rng.within(0, 5)),
            2 => rng.pick(&[1, -1]) * (Board::MOST_DELAY + rng.within(-1, 1)),
            _ => rng.within(-10, 10),
        }
    }

    /// Input b gets a's arcs, later or earlier by one number.
    fn plant_share_inputs(&mut self, rng: &mut Rng) {
        if self.board.inputs < 2 {
            return;
        }
        let a = rng.below(self.board.inputs);
        let b = (a + 1 + rng.below(self.board.inputs - 1)) % self.board.inputs;
        let e = self.difference(rng);
        let far = e.abs() > Board::MOST_DELAY / 2;
        for _ in 0..rng.below(5) {
            let t = rng.pick(&self.order);
            if self.fits(a, t) && self.fits(b, t) {
                let delay = self.delays.one(rng);
                self.put(a, t, delay);
            }
        }
        for t in self.board.inputs..self.board.vertices {
            if far && self.get(a, t).is_some() {
                self.put(a, t, -e / 2 + rng.within(-2, 2));
            }
            self.table[self.board.vertices * b + t] = Board::ABSENT;
            if let Some(delay) = self.get(a, t) {
                self.put(b, t, delay + e);
            }
        }
    }

    /// Output b gets the arcs into a, later or earlier by one number.
    fn plant_share_outputs(&mut self, rng: &mut Rng) {
        if self.board.outputs < 2 {
            return;
        }
        let (a, b) = (self.output(rng), self.output(rng));
        let e = self.difference(rng);
        let far = e.abs() > Board::MOST_DELAY / 2;
        for s in 0..self.board.vertices {
            if !self.order.contains(&s) || !self.fits(s, a) || !self.fits(s, b) || a == b {
                continue;
            }
            if far && self.get(s, a).is_some() {
                self.put(s, a, -e / 2);
            }
            self.table[self.board.vertices * s + b] = Board::ABSENT;
            if let Some(delay) = self.get(s, a) {
                self.put(s, b, delay + e);
            }
        }
    }

    /// Output b hears of everything through a alone, save arcs that never decide.
    fn plant_follower(&mut self, rng: &mut Rng) {
        let (a, b) = (self.output(rng), self.output(rng));
        if !self.fits(a, b) {
            return;
        }
        self.board.remove_arcs_in(&mut self.table, b);
        self.put(a, b, rng.within(-3, 9));
    }

    /// Arcs from some vertices to some later ones, of delays that are sums; one may be off.
    fn plant_star(&mut self, rng: &mut Rng) -> Option<Star> {
        let cut = 1 + rng.below(self.order.len());
        let mut sources = self.order[..cut].to_vec();
        let mut targets = self.order[cut..].to_vec();
        targets.retain(|&t| t >= self.board.inputs);
        rng.shuffle(&mut sources);
        rng.shuffle(&mut targets);
        sources.truncate(1 + rng.below(5));
        targets.truncate(2 + rng.below(4));
        if targets.is_empty() {
            return None;
        }
        let spread = rng.pick(&[3, 3, 20, Board::MOST_DELAY / 2, Board::MOST_DELAY / 2]);
        let far = rng.chance(40);
        let side = rng.pick(&[1, -1]);
        let ends: Vec<i64> = targets.iter().map(|_| rng.within(-spread, spread)).collect();
        for (place, &s) in sources.iter().enumerate() {
            let start = match (far, place) {
                (true, 0) => side * (Board::MOST_DELAY / 2 + rng.within(0, 1)),
                (true, _) => -side * (Board::MOST_DELAY / 2 + rng.within(-1, 1)),
                (false, _) => rng.within(-9, 9),
            };
            for (&t, end) in targets.iter().zip(&ends) {
                let off = if rng.chance(5) { rng.within(-2, 2) } else { 0 };
                let end = if far { end % 9 } else { *end };
                self.put(s, t, start + end + off);
            }
        }
        Some((sources, targets))
    }

    /// An inner vertex with one arc in, or one out, or both.
    fn plant_chain(&mut self, rng: &mut Rng) {
        let Some(k) = self.inner(rng) else { return };
        let place = self.place(k);
        if rng.chance(60) && place > 0 {
            let u = self.order[rng.below(place)];
            self.board.remove_arcs_in(&mut self.table, k);
            let delay = self.delays.one(rng);
            self.put(u, k, delay);
        }
        if rng.chance(60) && place + 1 < self.order.len() {
            let t = self.order[place + 1 + rng.below(self.order.len() - place - 1)];
            if self.fits(k, t) {
                self.board.remove_arcs_out(&mut self.table, k);
                let delay = self.delays.one(rng);
                self.put(k, t, delay);
            }
        }
    }

    /// An output whose one arc in comes from an inner vertex.
    fn plant_merge_back(&mut self, rng: &mut Rng) {
        let o = self.output(rng);
        let Some(v) = self.inner(rng) else { return };
        if self.fits(v, o) {
            self.board.remove_arcs_in(&mut self.table, o);
            let delay = self.delays.one(rng);
            self.put(v, o, delay);
        }
    }
}

/// A board that passes the checks, at times a ladder or one with forks or blocks, with the stars planted
/// in it.
pub fn board(rng: &mut Rng) -> (Board, Vec<i32>, Vec<Star>) {
    if rng.chance(15) {
        let (board, table) = ladders::board(rng);
        return (board, table, Vec::new());
    }
    if rng.chance(15) {
        let (board, table) = forks::board(rng);
        return (board, table, Vec::new());
    }
    if rng.chance(10) {
        return blocks::board(rng);
    }
    let board = sizes(rng);
    let (table, stars) = table(rng, board);
    (board, table, stars)
}

/// Sizes within the limits.
fn sizes(rng: &mut Rng) -> Board {
    let vertices = match rng.below(200) {
        0..=39 => 2 + rng.below(5),
        40..=169 => 6 + rng.below(7),
        170..=194 => 13 + rng.below(18),
        195..=198 => 31 + rng.below(59),
        _ => 90,
    };
    let ends = match rng.below(4) {
        0 => vertices,
        1 => 2 + rng.below(vertices - 1),
        _ => 2 + rng.below(2 * vertices / 3).min(vertices - 2),
    };
    // mostly two of each at least, to have some to share
    let least = if ends >= 4 && rng.chance(70) { 2 } else { 1 };
    let inputs = least + rng.below(ends - 2 * least + 1);
    Board { inputs, outputs: ends - inputs, vertices }
}

/// A table that passes the checks, with the stars planted in it.
pub fn table(rng: &mut Rng, board: Board) -> (Vec<i32>, Vec<Star>) {
    // some inner vertices stay without arcs, to be new numbers
    let free = if rng.chance(70) { 1 + rng.below(3) } else { 0 };
    let used = board.vertices.saturating_sub(free).max(board.inputs + board.outputs);
    let mut order: Vec<usize> = (0..used).collect();
    rng.shuffle(&mut order);
    if rng.chance(50) {
        order.sort_by_key(|&v| v >= board.inputs);
    }
    let delays = Delays::any(rng);
    let mut draft = Draft { board, order, table: vec![Board::ABSENT; board.cells()], delays };
    let density = rng.pick(&[0, 10, 25, 50, 50, 75, 100]);
    draft.join(rng, density);
    let mut stars = Vec::new();
    for _ in 0..rng.below(4) {
        match rng.below(9) {
            0..=2 => draft.plant_share_inputs(rng),
            3 => draft.plant_share_outputs(rng),
            4 => draft.plant_follower(rng),
            5 | 6 => stars.extend(draft.plant_star(rng)),
            7 => draft.plant_chain(rng),
            _ => draft.plant_merge_back(rng),
        }
    }
    (draft.table, stars)
}

/// A board of up to `most` vertices, mostly so many and few of them inputs, whose table passes the
/// checks and has many arcs, at times all that it can have.
pub fn dense(rng: &mut Rng, most: usize) -> (Board, Vec<i32>) {
    let vertices = if rng.chance(70) { most } else { most - rng.below(most / 3) };
    let inputs = rng.pick(&[1, 1, 2, 1 + vertices / 4]);
    // few, since a run tries all pairs of them
    let outputs = 1 + rng.below(10);
    let board = Board { inputs, outputs, vertices };
    // arcs that all lead to higher numbers, to lower ones, or to any
    let mut order: Vec<usize> = (0..vertices).collect();
    match rng.below(4) {
        0 => {}
        1 => order.reverse(),
        _ => rng.shuffle(&mut order),
    }
    order.sort_by_key(|&v| v >= inputs);
    let delays = Delays::any(rng);
    let mut draft = Draft { board, order, table: vec![Board::ABSENT; board.cells()], delays };
    let density = rng.pick(&[40, 80, 100, 100]);
    draft.join(rng, density);
    (board, draft.table)
}

/// One cell that a table may not have, or an arc that may not be there.
fn damage(rng: &mut Rng, board: Board, table: &mut [i32]) {
    let cell = rng.below(board.cells());
    match rng.below(4) {
        0 | 1 => {
            table[cell] = rng.pick(&[
                Board::MOST_DELAY as i32 + 1,
                Board::LEAST_DELAY as i32 - 1,
                i32::MAX,
                i32::MIN + 1,
            ]);
        }
        2 => {
            let (u, i) = (rng.below(board.vertices), rng.below(board.inputs));
            table[board.vertices * u + i] = rng.within(-1, 1) as i32;
        }
        _ => {
            // a loop, or an arc against another one
            let u = board.inputs + rng.below(board.vertices - board.inputs);
            let v = board.arcs_out(table, u).next().map_or(u, |(v, _)| v);
            let v = if rng.chance(30) { u } else { v };
            table[board.vertices * v + u] = 0;
        }
    }
}

/// A length that is right, short by one, or long.
pub fn length(rng: &mut Rng, right: usize) -> usize {
    match rng.below(40) {
        0 => right.saturating_sub(1),
        1 => rng.below(right + 1),
        2..=9 => right + 1 + rng.below(20),
        _ => right,
    }
}

/// The cells of scratch that a board needs, at times those of its table.
pub fn scratch_cells(rng: &mut Rng, board: Board) -> usize {
    if rng.chance(25) {
        board.cells()
    } else {
        board.scratch_cells()
    }
}

/// What a list starts from: mostly sensible.
pub fn lent(rng: &mut Rng) -> Lent {
    let (board, mut cells, stars) = board(rng);
    if rng.chance(8) {
        for _ in 0..1 + rng.below(2) {
            damage(rng, board, &mut cells);
        }
    }
    let mut sizes = Sizes {
        inputs: board.inputs as u64,
        outputs: board.outputs as u64,
        vertices: board.vertices as u64,
    };
    if rng.chance(4) {
        nonsense_sizes(rng, &mut sizes);
    }
    // at times there is room for a file of any size
    let vertices = if rng.chance(3) { Board::MOST_VERTICES } else { board.vertices };
    let room = Board { vertices, ..board };
    let table_length = length(rng, room.cells());
    // what stands after the board's cells doesn't matter
    cells.resize_with(table_length, || {
        rng.pick(&[0, 1, 5, i32::MAX, i32::MIN, i32::MIN + 1, 1_000_000_001])
    });
    let scratch_cells = scratch_cells(rng, room);
    let scratch = length(rng, scratch_cells);
    Lent { sizes, table: cells, scratch, stars }
}

fn nonsense_sizes(rng: &mut Rng, sizes: &mut Sizes) {
    match rng.below(6) {
        0 => sizes.inputs = 0,
        1 => sizes.outputs = 0,
        2 => sizes.vertices = rng.pick(&[0, 1, 91, 92, 255, 256, 65_536, 1 << 32, u64::MAX]),
        3 => sizes.inputs = sizes.vertices - sizes.outputs + 1,
        4 => {
            // m + n wraps to something small
            sizes.inputs = u64::MAX - rng.below(3) as u64;
            sizes.outputs = 1 + rng.below(5) as u64;
        }
        _ => {
            let vertices = sizes.vertices;
            for size in [&mut sizes.inputs, &mut sizes.outputs, &mut sizes.vertices] {
                if rng.chance(60) {
                    *size = rng.nonsense(vertices);
                }
            }
        }
    }
}
