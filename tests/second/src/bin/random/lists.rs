//! Random calls on a table as it is at the moment: often ones that will be accepted.

use crate::boards::{self, Star};
use crate::calls::{Answer, Call};
use crate::rng::Rng;
use crate::{files, libraries};
use second::board::{Board, Sizes};
use second::delays;
use second::library::{BUILT_IN, CODES};

/// Boards of so many vertices have cells under a load of fifty and more.
const LARGE: usize = 60;

/// The most numbers that `replay` holds.
const MOST_CELLS: usize = 8_200;
const MOST_TIMES: usize = 100;

const BUILT_IN_CODES: [u8; 5] = [0, 1, 2, 3, 4];

pub struct Maker<'r> {
    pub rng: &'r mut Rng,
    pub sizes: Sizes,
    pub scratch: usize,
    pub library: &'r [i32],
    pub stars: &'r [Star],
}

impl Maker<'_> {
    /// A list's first call, often a run, which finds the most to do then, or one on inputs and blocks that
    /// are as they were planted.
    pub fn first(&mut self, table: &[i32]) -> Call {
        match self.rng.below(100) {
            0..=24 => Call::Run,
            25..=34 => self.one(2, table),
            35..=44 => Call::FindStar,
            45..=59 if !self.stars.is_empty() => Call::FindStar,
            _ => self.call(table),
        }
    }

    pub fn call(&mut self, table: &[i32]) -> Call {
        if !libraries::is_sound(self.library) && self.rng.chance(60) {
            let kind = self.rng.pick(&[11, 11, 13]);
            return self.one(kind, table);
        }
        // a search for a call that is accepted, where that is cheap
        if self.rng.chance(45) && table.len() <= 1_000 {
            for _ in 0..12 {
                let kind = self.rng.pick(&[1, 2, 2, 2, 3, 3, 5, 5, 6, 6, 6]);
                let call = self.one(kind, table);
                let mut copy = table.to_vec();
                let answer = call.perform(self.sizes, &mut copy, self.scratch, &mut []).answer;
                if matches!(answer, Answer::Accepted(_)) {
                    return call;
                }
            }
        }
        // where a large file fits, one is read often, and under another library any file
        let often = match self.largest(table) {
            LARGE.. => 30,
            _ if *self.library != BUILT_IN => 15,
            _ => 0,
        };
        if self.rng.chance(often) {
            return self.one(11, table);
        }
        let kind = match self.rng.below(123) {
            0..=11 => 1,
            12..=24 => 2,
            25..=36 => 3,
            37..=42 => 4,
            43..=53 => 5,
            54..=67 => 6,
            68..=72 => 7,
            73..=79 => 8,
            80..=86 => 9,
            87..=91 => 10,
            92..=99 => 11,
            100..=107 => 12,
            108..=115 => 13,
            _ => 15,
        };
        self.one(kind, table)
    }

    fn one(&mut self, kind: usize, table: &[i32]) -> Call {
        let board = self.board(table);
        match kind {
            1 => Call::Shrink { k: self.inner(board) },
            2 => {
                let a = self.input(board);
                let b = self.another(a, |maker| maker.input(board));
                let b = self.fork(a, board, table).unwrap_or(b);
                Call::ShareInputs { a, b, k: self.new_number(board, table) }
            }
            3 => {
                let a = self.output(board);
                let b = self.another(a, |maker| maker.output(board));
                Call::ShareOutputs { a, b }
            }
            4 => Call::Prune,
            5 => Call::MergeBack { o: self.output(board) },
            6 => self.star(board, table),
            7 => Call::Run,
            8 => {
                let right = board.map_or(4, |board| board.inputs * board.outputs);
                Call::Matrix { destination: self.length(right) }
            }
            9 => self.arrivals(board),
            10 => {
                let right = board.map_or(20, |board| 9 + 8 * board.arcs(table) as usize);
                // a damaged table may have more arcs than any file
                Call::Write { destination: self.length(right).min(32_900) }
            }
            11 => self.read(board, self.largest(table)),
            12 => self.margins(board),
            13 => Call::ReadLibrary { bytes: libraries::file(self.rng) },
            _ => Call::FindStar,
        }
    }

    /// The sizes as a board, where the table has its cells.
    fn board(&self, table: &[i32]) -> Option<Board> {
        Board::new(self.sizes).ok().filter(|board| table.len() >= board.cells())
    }

    /// The most vertices of a file that fits what is lent.
    fn largest(&self, table: &[i32]) -> usize {
        let by_scratch = self.scratch / Board::SCRATCH_PER_VERTEX;
        table.len().isqrt().min(by_scratch).min(Board::MOST_VERTICES)
    }

    fn length(&mut self, right: usize) -> usize {
        match self.rng.below(8) {
            0 => right.saturating_sub(1),
            1 => right + 1 + self.rng.below(5),
            2 => self.rng.below(right + 1),
            _ => right,
        }
    }

    fn any_vertex(&mut self) -> u64 {
        let vertices = self.sizes.vertices;
        match self.rng.below(5) {
            0 => self.rng.nonsense(vertices),
            _ => self.rng.next() % vertices.clamp(1, 100),
        }
    }

    fn inner(&mut self, board: Option<Board>) -> u64 {
        match board {
            Some(board) if self.rng.chance(88) => {
                let ends = board.inputs + board.outputs;
                if ends < board.vertices {
                    (ends + self.rng.below(board.vertices - ends)) as u64
                } else {
                    self.any_vertex()
                }
            }
            _ => self.any_vertex(),
        }
    }

    fn input(&mut self, board: Option<Board>) -> u64 {
        match board {
            Some(board) if self.rng.chance(94) => self.rng.below(board.inputs) as u64,
            _ => self.any_vertex(),
        }
    }

    /// At times an input other than `a` with two arcs out.
    fn fork(&mut self, a: u64, board: Option<Board>, table: &[i32]) -> Option<u64> {
        let board = board.filter(|_| self.rng.chance(40))?;
        let mut forks: Vec<usize> = (0..board.inputs).collect();
        forks.retain(|&b| b as u64 != a && board.arcs_out(table, b).count() == 2);
        (!forks.is_empty()).then(|| self.rng.pick(&forks) as u64)
    }

    /// Mostly another number than `one`, where there is one.
    fn another(&mut self, one: u64, mut number: impl FnMut(&mut Self) -> u64) -> u64 {
        let mut other = number(self);
        for _ in 0..3 {
            if other == one {
                other = number(self);
            }
        }
        other
    }

    fn output(&mut self, board: Option<Board>) -> u64 {
        match board {
            Some(board) if self.rng.chance(94) => {
                (board.inputs + self.rng.below(board.outputs)) as u64
            }
            _ => self.any_vertex(),
        }
    }

    fn new_number(&mut self, board: Option<Board>, table: &[i32]) -> u64 {
        if let Some(board) = board {
            if self.rng.chance(88) {
                let mut inner: Vec<usize> = (0..board.vertices)
                    .filter(|&v| board.is_inner(v) && !board.in_use(table, v))
                    .collect();
                self.rng.shuffle(&mut inner);
                if let Some(&k) = inner.first() {
                    return k as u64;
                }
            }
        }
        if self.rng.chance(50) {
            self.inner(board)
        } else {
            self.any_vertex()
        }
    }

    fn star(&mut self, board: Option<Board>, table: &[i32]) -> Call {
        let k = self.new_number(board, table);
        let mut sources: Vec<u64>;
        let mut targets: Vec<u64>;
        match board {
            Some(_) if !self.stars.is_empty() && self.rng.chance(50) => {
                let (s, t) = &self.stars[self.rng.below(self.stars.len())];
                sources = s.iter().map(|&v| v as u64).collect();
                targets = t.iter().map(|&v| v as u64).collect();
            }
            Some(board) if self.rng.chance(85) => {
                // some vertices, and the targets that they have in common
                let mut all: Vec<usize> = (0..board.vertices).collect();
                all.retain(|&u| board.arcs_out(table, u).next().is_some());
                self.rng.shuffle(&mut all);
                all.truncate(1 + self.rng.below(4));
                let common = |all: &[usize], t: usize| {
                    all.iter().all(|&s| board.row(table, s)[t] != Board::ABSENT)
                };
                while !(0..board.vertices).any(|t| common(&all, t)) {
                    all.pop();
                }
                let targets_of_all = (0..board.vertices).filter(|&t| common(&all, t));
                targets = targets_of_all.map(|t| t as u64).collect();
                sources = all.iter().map(|&s| s as u64).collect();
            }
            _ => {
                sources = (0..self.rng.below(5)).map(|_| self.any_vertex()).collect();
                targets = (0..self.rng.below(5)).map(|_| self.any_vertex()).collect();
            }
        }
        if self.rng.chance(50) {
            self.rng.shuffle(&mut sources);
            self.rng.shuffle(&mut targets);
        }
        if self.rng.chance(15) {
            let extra = self.any_vertex();
            let list = if self.rng.chance(50) { &mut sources } else { &mut targets };
            match self.rng.below(6) {
                0 => list.clear(),
                1 => drop(list.pop()),
                2 => list.extend(list.clone()),
                3 => list.extend(list.first().copied()),
                4 => list.push(extra),
                _ => {
                    let long = 80 + self.rng.below(110) as u64;
                    list.extend((0..long).map(|v| v % 89));
                }
            }
            list.truncate(199);
        }
        Call::Star { sources, targets, k }
    }

    fn arrivals(&mut self, board: Option<Board>) -> Call {
        let (inputs, outputs) = board.map_or((3, 3), |board| (board.inputs, board.outputs));
        let mut count = inputs;
        let mut answers = outputs;
        match self.rng.below(20) {
            0 => count -= 1,
            1 => count += 1,
            2 => answers -= 1,
            3 => answers += 1,
            4 => answers = self.rng.below(10),
            _ => {}
        }
        let mut arrivals = times(self.rng, count.min(MOST_TIMES));
        if self.rng.chance(12) {
            self.spoil(&mut arrivals);
        }
        Call::Arrivals { arrivals, answers: answers.min(MOST_CELLS) }
    }

    fn margins(&mut self, board: Option<Board>) -> Call {
        let (inputs, outputs, vertices) =
            board.map_or((3, 3, 9), |board| (board.inputs, board.outputs, board.vertices));
        let mut lengths = [inputs, outputs, vertices, vertices, vertices];
        if self.rng.chance(20) {
            let length = &mut lengths[self.rng.below(5)];
            *length = match self.rng.below(4) {
                0 => *length - 1,
                1 => *length + 1,
                2 => 0,
                _ => self.rng.below(MOST_TIMES + 1),
            };
        }
        let [inputs, outputs, answers @ ..] = lengths;
        let mut arrivals = times(self.rng, inputs);
        let mut required = times(self.rng, outputs);
        match self.rng.below(16) {
            0 => self.spoil(&mut arrivals),
            1 => self.spoil(&mut required),
            _ => {}
        }
        Call::Margins { arrivals, required, answers }
    }

    /// One of the times is out of range, if there is one.
    fn spoil(&mut self, times: &mut [i64]) {
        if times.is_empty() {
            return;
        }
        times[self.rng.below(times.len())] = self.rng.pick(&[
            delays::MOST_TIME + 1,
            -delays::MOST_TIME - 1,
            i64::MAX,
            i64::MIN + 1,
            1 << 62,
        ]);
    }

    fn read(&mut self, board: Option<Board>, largest: usize) -> Call {
        let codes = self.codes();
        let mut bytes = if largest >= LARGE && self.rng.chance(70) {
            files::loaded(self.rng, largest, &codes)
        } else {
            let like = board.filter(|_| self.rng.chance(60));
            files::file(self.rng, like, &codes)
        };
        bytes.truncate(usize::from(u16::MAX));
        Call::Read { bytes }
    }

    /// The codes of a file's cells: mostly those that the library has.
    fn codes(&mut self) -> Vec<u8> {
        let cells = self.library.iter().take(CODES);
        let present = (0..).zip(cells).filter(|(_, &cell)| cell != Board::ABSENT);
        let codes: Vec<u8> = present.map(|(code, _)| code).collect();
        match self.rng.below(12) {
            0 => BUILT_IN_CODES.to_vec(),
            1 => (0..CODES as u8).collect(),
            _ if codes.is_empty() => BUILT_IN_CODES.to_vec(),
            _ => codes,
        }
    }
}

/// Arrivals or required times within the limits, some absent.
pub fn times(rng: &mut Rng, count: usize) -> Vec<i64> {
    let absent = rng.pick(&[0, 10, 50, 100]);
    let most = rng.pick(&[0, 5, 100, delays::MOST_TIME]);
    let mut time = || {
        if rng.chance(absent) {
            delays::NONE
        } else if rng.chance(10) {
            rng.pick(&[-delays::MOST_TIME, delays::MOST_TIME])
        } else {
            rng.within(-most, most)
        }
    };
    (0..count).map(|_| time()).collect()
}

/// How many calls a list has: fewer on large boards.
pub fn calls(rng: &mut Rng, table: usize) -> usize {
    1 + rng.below(match table {
        0..=200 => 12,
        201..=1_000 => 7,
        _ => 4,
    })
}

/// The bytes that `thin` gets: a file, at times with more than it reads.
pub fn thin_input(rng: &mut Rng) -> Vec<u8> {
    let mut bytes = if rng.chance(3) {
        files::loaded(rng, Board::MOST_VERTICES, &BUILT_IN_CODES)
    } else {
        files::file(rng, None, &BUILT_IN_CODES)
    };
    if rng.chance(1) {
        let long = boards::length(rng, 65_536);
        bytes.resize_with(long.max(bytes.len()), || rng.next() as u8);
    }
    bytes
}
