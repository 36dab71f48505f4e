//! The boards, always the same.

use second::board::Board;

/// Boards of 90 vertices.
pub const NAMES: [&str; 12] = [
    "dense", "ones", "layered", "sparse", "ladder", "fans", "rounds", "stars", FULLEST, CELLS,
    SPARE, EVEN,
];

/// The one with the most arcs that a board can have, and the same with a cell for each arc.
pub const FULLEST: &str = "full";
pub const CELLS: &str = "cells";

/// The fullest with an inner number free, for a star's centre: with random delays, of which few are
/// covered, and with those that are as long as their ends are apart, all of which are.
pub const SPARE: &str = "spare";
pub const EVEN: &str = "even";

/// The board of a name, or a smaller one, as `dense30`.
pub fn board(name: &str) -> Option<(Board, Vec<i32>)> {
    let kind = name.trim_end_matches(|c: char| c.is_ascii_digit());
    let vertices = match &name[kind.len()..] {
        "" => Board::MOST_VERTICES,
        digits => digits.parse().ok()?,
    };
    let mut random = Random(20_261_116);
    match kind {
        "dense" => Some(dense(&mut random, vertices)),
        "ones" => Some(ones(vertices)),
        "layered" => Some(layered(&mut random, vertices)),
        "sparse" => Some(sparse(&mut random, vertices)),
        "ladder" => Some(ladder(vertices)),
        "fans" => Some(fans(vertices)),
        "rounds" => Some(rounds(vertices)),
        "stars" => Some(stars(vertices)),
        FULLEST | CELLS => Some(full(&mut random, vertices)),
        SPARE => Some(spare(vertices, |_, _| random.delay())),
        EVEN => Some(spare(vertices, |u, v| (v - u) as i32)),
        _ => None,
    }
}

/// The file of a board whose arcs are all cells, of each code in turn.
pub fn file_of_cells(board: &Board, table: &[i32]) -> Vec<u8> {
    let mut file = vec![b'B', b'D', board.inputs as u8, board.outputs as u8, board.vertices as u8];
    let mut count = 0u16;
    for u in 0..board.vertices {
        for (v, _) in board.arcs_out(table, u) {
            file.extend([b'C', b'E', u as u8, v as u8, (count % 5) as u8]);
            count += 1;
        }
    }
    file.extend(b"EN");
    file.extend(count.to_le_bytes());
    file
}

fn sized(inputs: usize, outputs: usize, vertices: usize) -> (Board, Vec<i32>) {
    let board = Board { inputs, outputs, vertices };
    (board, vec![Board::ABSENT; board.cells()])
}

/// Every arc that fits one random order of the vertices.
fn dense(random: &mut Random, vertices: usize) -> (Board, Vec<i32>) {
    let (board, mut table) = sized(vertices / 3, vertices / 3, vertices);
    let order = random.order(board.vertices);
    for (place, &u) in order.iter().enumerate() {
        for &v in order[place + 1..].iter().filter(|&&v| v >= board.inputs) {
            table[board.vertices * u + v] = random.delay();
        }
    }
    (board, table)
}

/// One input, and every arc to a higher number.
fn full(random: &mut Random, vertices: usize) -> (Board, Vec<i32>) {
    let (board, mut table) = sized(1, vertices - 1, vertices);
    for u in 0..vertices {
        for v in u + 1..vertices {
            table[vertices * u + v] = random.delay();
        }
    }
    (board, table)
}

/// One input, and every arc to a higher number but for the last, which is free.
fn spare(vertices: usize, mut delay: impl FnMut(usize, usize) -> i32) -> (Board, Vec<i32>) {
    let (board, mut table) = sized(1, vertices - 2, vertices);
    for u in 0..vertices - 1 {
        for v in u + 1..vertices - 1 {
            table[vertices * u + v] = delay(u, v);
        }
    }
    (board, table)
}

/// Every arc to a higher number that isn't an input, all of delay 1.
fn ones(vertices: usize) -> (Board, Vec<i32>) {
    let (board, mut table) = sized(vertices / 3, vertices / 3, vertices);
    for u in 0..board.vertices {
        let first = board.inputs.max(u + 1);
        board.row_mut(&mut table, u)[first..].fill(1);
    }
    (board, table)
}

/// The inputs, five layers of inner vertices, the outputs: each layer whole to the next.
fn layered(random: &mut Random, vertices: usize) -> (Board, Vec<i32>) {
    let ends = vertices * 2 / 9;
    let (board, mut table) = sized(ends, ends, vertices);
    let inner = 2 * ends;
    let wide = (vertices - inner) / 5;
    let mut layers = Vec::new();
    layers.push(0..ends);
    layers.extend((0..5).map(|layer| inner + wide * layer..inner + wide * (layer + 1)));
    layers.push(ends..inner);
    for pair in layers.windows(2) {
        for u in pair[0].clone() {
            for v in pair[1].clone() {
                table[board.vertices * u + v] = random.delay();
            }
        }
    }
    (board, table)
}

/// Three arcs out of each vertex to random later ones of one random order, where there are three.
fn sparse(random: &mut Random, vertices: usize) -> (Board, Vec<i32>) {
    let ends = vertices * 2 / 9;
    let (board, mut table) = sized(ends, ends, vertices);
    let order = random.order(board.vertices);
    for (place, &u) in order.iter().enumerate() {
        let mut later = order[place + 1..].to_vec();
        later.retain(|&v| v >= board.inputs);
        for _ in 0..later.len().min(3) {
            let v = later.swap_remove(random.below(later.len()));
            table[board.vertices * u + v] = random.delay();
        }
    }
    (board, table)
}

/// One input, and each output drives the two before it: every pair of outputs has a common
/// difference, and nearly every one a path back.
fn ladder(vertices: usize) -> (Board, Vec<i32>) {
    let (board, mut table) = sized(1, vertices - 1, vertices);
    for v in 1..vertices {
        for u in [v + 1, v + 2] {
            table[if u < vertices { vertices * u + v } else { v }] = 1;
        }
    }
    (board, table)
}

/// One input, a chain of inner vertices to the first output, and every other output fed twice from
/// its start: each share with the first output is accepted, and asks for a new order.
fn fans(vertices: usize) -> (Board, Vec<i32>) {
    let outputs = vertices * 2 / 3;
    let (board, mut table) = sized(1, outputs, vertices);
    let inner = 1 + outputs;
    let mut arc = |u: usize, v: usize| table[vertices * u + v] = 1;
    arc(0, inner);
    for v in inner..vertices - 1 {
        arc(v, v + 1);
    }
    arc(vertices - 2, 1);
    arc(vertices - 1, 1);
    for v in 2..inner {
        arc(0, v);
        arc(inner, v);
    }
    (board, table)
}

/// Three arcs in five, and six numbers inner: until runs made stars, a run shared one input in each of
/// many rounds here and shrank the new vertex.
fn rounds(vertices: usize) -> (Board, Vec<i32>) {
    apart(2_239, 60, vertices * 22 / 45, vertices * 4 / 9, vertices) // the worst of 8,000 then
}

/// Every other arc, and eight numbers inner: nine rounds make a star each.
fn stars(vertices: usize) -> (Board, Vec<i32>) {
    let inputs = (vertices - 8) * 11 / 21;
    // of some 350 seeds and shares of arcs that were tried, this took most rounds
    apart(223, 50, inputs, vertices - 8 - inputs, vertices)
}

/// So many arcs in a hundred of those that fit one order, each as long as its ends are apart in it: all
/// paths between two vertices take the same, so that every pair of inputs has a common difference.
fn apart(
    seed: u64,
    percent: usize,
    inputs: usize,
    outputs: usize,
    vertices: usize,
) -> (Board, Vec<i32>) {
    let (board, mut table) = sized(inputs, outputs, vertices);
    let order: Vec<usize> = (0..inputs).chain((inputs..vertices).rev()).collect();
    let mut random = Random(seed);
    for (place, &u) in order.iter().enumerate() {
        for (beyond, &v) in order.iter().enumerate().skip(place + 1) {
            if v >= inputs && random.below(100) < percent {
                table[vertices * u + v] = (beyond - place) as i32;
            }
        }
    }
    (board, table)
}

/// splitmix64
struct Random(u64);

impl Random {
    fn below(&mut self, end: usize) -> usize {
        self.0 = self.0.wrapping_add(0x9e37_79b9_7f4a_7c15);
        let mut z = self.0;
        z = (z ^ (z >> 30)).wrapping_mul(0xbf58_476d_1ce4_e5b9);
        z = (z ^ (z >> 27)).wrapping_mul(0x94d0_49bb_1331_11eb);
        ((z ^ (z >> 31)) % end as u64) as usize
    }

    fn delay(&mut self) -> i32 {
        self.below(2_001) as i32 - 500
    }

    fn order(&mut self, vertices: usize) -> Vec<usize> {
        let mut order: Vec<usize> = (0..vertices).collect();
        for last in (1..vertices).rev() {
            order.swap(last, self.below(last + 1));
        }
        order
    }
}
