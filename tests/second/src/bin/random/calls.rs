//! The calls of a list: as `replay` reads them, and what it must print for each.

use second::board::{Board, Sizes};
use second::find_star::{find_star, Found};
use second::margins::{self, Answers};
use second::records::RefusedRead;
use second::{delays, file, library, literal, refusal, steps};
use std::fmt::Write;

#[derive(Clone, Debug)]
pub enum Call {
    Shrink { k: u64 },
    ShareInputs { a: u64, b: u64, k: u64 },
    ShareOutputs { a: u64, b: u64 },
    Prune,
    MergeBack { o: u64 },
    Star { sources: Vec<u64>, targets: Vec<u64>, k: u64 },
    Run,
    Matrix { destination: usize },
    Arrivals { arrivals: Vec<i64>, answers: usize },
    Write { destination: usize },
    Read { bytes: Vec<u8> },
    Margins { arrivals: Vec<i64>, required: Vec<i64>, answers: [usize; 3] },
    ReadLibrary { bytes: Vec<u8> },
    FindStar,
}

/// The byte by which `replay` takes another library; no call is made, and nothing is printed.
const PUT_LIBRARY: u8 = 14;

/// What an accepted call answers.
#[derive(Clone, Copy, Debug, PartialEq, Eq)]
pub enum Accepted {
    Left(u64),
    Ran(literal::Ran),
    Done,
    Bytes(u64),
    Board(Sizes),
    Found(Option<Found>),
}

#[derive(Clone, Copy, Debug, PartialEq, Eq)]
pub enum Answer {
    Accepted(Accepted),
    Refused(u64),
    RefusedRead(RefusedRead),
}

impl Answer {
    /// The refusal's number, 0 if accepted.
    pub fn number(self) -> u64 {
        match self {
            Answer::Accepted(_) => 0,
            Answer::Refused(number) => number,
            Answer::RefusedRead(refused) => refused.number,
        }
    }

    pub fn refused_read(self) -> Option<RefusedRead> {
        match self {
            Answer::RefusedRead(refused) => Some(refused),
            _ => None,
        }
    }
}

fn read_answer<T>(result: Result<T, RefusedRead>, accepted: impl Fn(T) -> Accepted) -> Answer {
    match result {
        Ok(value) => Answer::Accepted(accepted(value)),
        Err(refused) => Answer::RefusedRead(refused),
    }
}

fn answer<T>(result: Result<T, u64>, accepted: impl Fn(T) -> Accepted) -> Answer {
    match result {
        Ok(value) => Answer::Accepted(accepted(value)),
        Err(number) => Answer::Refused(number),
    }
}

/// What `replay` fills a destination with before the call.
const DESTINATION_FILL: u8 = 9;

/// So many cells of a destination before the call.
fn filled(cells: usize) -> Vec<i64> {
    vec![i64::from(DESTINATION_FILL); cells]
}

/// An answer and what the call left in its destinations.
pub struct Performed {
    pub answer: Answer,
    pub destinations: Vec<Vec<i64>>,
}

impl Call {
    /// The byte that `replay` knows the call by.
    pub fn code(&self) -> u8 {
        match self {
            Call::Shrink { .. } => 1,
            Call::ShareInputs { .. } => 2,
            Call::ShareOutputs { .. } => 3,
            Call::Prune => 4,
            Call::MergeBack { .. } => 5,
            Call::Star { .. } => 6,
            Call::Run => 7,
            Call::Matrix { .. } => 8,
            Call::Arrivals { .. } => 9,
            Call::Write { .. } => 10,
            Call::Read { .. } => 11,
            Call::Margins { .. } => 12,
            Call::ReadLibrary { .. } => 13,
            Call::FindStar => 15,
        }
    }

    pub fn encode(&self, to: &mut Vec<u8>) {
        to.push(self.code());
        match self {
            Call::Shrink { k } => number(to, *k),
            Call::ShareInputs { a, b, k } => {
                number(to, *a);
                number(to, *b);
                number(to, *k);
            }
            Call::ShareOutputs { a, b } => {
                number(to, *a);
                number(to, *b);
            }
            Call::Prune | Call::Run | Call::FindStar => {}
            Call::MergeBack { o } => number(to, *o),
            Call::Star { sources, targets, k } => {
                for list in [sources, targets] {
                    length(to, list.len());
                    list.iter().for_each(|&v| number(to, v));
                }
                number(to, *k);
            }
            Call::Matrix { destination } | Call::Write { destination } => length(to, *destination),
            Call::Arrivals { arrivals, answers } => {
                times(to, arrivals);
                length(to, *answers);
            }
            Call::Read { bytes } | Call::ReadLibrary { bytes } => {
                length(to, bytes.len());
                to.extend(bytes);
            }
            Call::Margins { arrivals, required, answers } => {
                times(to, arrivals);
                times(to, required);
                answers.iter().for_each(|&answers| length(to, answers));
            }
        }
    }

    /// The call, by the second implementation.
    pub fn perform(
        &self,
        sizes: Sizes,
        table: &mut [i32],
        scratch: usize,
        library: &mut [i32],
    ) -> Performed {
        let left = Accepted::Left;
        let mut destinations = Vec::new();
        let answer = match self {
            Call::Shrink { k } => answer(steps::shrink(sizes, table, scratch, *k), left),
            Call::ShareInputs { a, b, k } => {
                answer(steps::share_inputs(sizes, table, scratch, *a, *b, *k), left)
            }
            Call::ShareOutputs { a, b } => {
                answer(steps::share_outputs(sizes, table, scratch, *a, *b), left)
            }
            Call::Prune => answer(steps::prune(sizes, table, scratch), left),
            Call::MergeBack { o } => answer(steps::merge_back(sizes, table, scratch, *o), left),
            Call::Star { sources, targets, k } => {
                answer(steps::star(sizes, table, scratch, sources, targets, *k), left)
            }
            Call::Run => answer(literal::run(sizes, table, scratch), Accepted::Ran),
            Call::Matrix { destination } => {
                let mut cells = filled(*destination);
                let result = delays::matrix(sizes, table, scratch, &mut cells);
                destinations = vec![cells];
                answer(result, |()| Accepted::Done)
            }
            Call::Arrivals { arrivals, answers } => {
                let mut cells = filled(*answers);
                let result = delays::arrivals(sizes, table, scratch, arrivals, &mut cells);
                destinations = vec![cells];
                answer(result, |()| Accepted::Done)
            }
            Call::Write { destination } => {
                let mut bytes = vec![DESTINATION_FILL; *destination];
                let result = file::write(sizes, table, scratch, &mut bytes);
                destinations = vec![bytes.into_iter().map(i64::from).collect()];
                answer(result, Accepted::Bytes)
            }
            Call::Read { bytes } => {
                read_answer(file::read(bytes, table, scratch, library), Accepted::Board)
            }
            Call::Margins { arrivals, required, answers } => {
                let [mut arrival_at, mut required_at, mut margin_at] = answers.map(filled);
                let lent = Answers {
                    arrival: &mut arrival_at,
                    required: &mut required_at,
                    margin: &mut margin_at,
                };
                let result = margins::margins(sizes, table, scratch, arrivals, required, lent);
                destinations = vec![arrival_at, required_at, margin_at];
                answer(result, |()| Accepted::Done)
            }
            Call::ReadLibrary { bytes } => {
                read_answer(library::read_library(bytes, library), |()| Accepted::Done)
            }
            Call::FindStar => answer(find_star(sizes, table, scratch), Accepted::Found),
        };
        Performed { answer, destinations }
    }

    /// The scratch cells that the call may have changed, at most.
    pub fn scratch_bound(&self, sizes: Sizes, answer: Answer) -> u64 {
        let in_first_record =
            matches!(answer, Answer::RefusedRead(RefusedRead { number: 15 | 16, offset: 0 }));
        if matches!(answer.number(), 1..=3 | refusal::LIBRARY)
            || in_first_record
            || matches!(self, Call::FindStar)
        {
            return 0;
        }
        Board::SCRATCH_PER_VERTEX as u64 * self.vertices(sizes).unwrap_or(0)
    }

    /// N as the call takes it, where it takes one: a read from its file.
    pub fn vertices(&self, sizes: Sizes) -> Option<u64> {
        match self {
            Call::ReadLibrary { .. } => None,
            Call::Read { bytes } => bytes.get(4).copied().map(u64::from),
            _ => Some(sizes.vertices),
        }
    }
}

fn number(to: &mut Vec<u8>, number: u64) {
    to.extend(number.to_le_bytes());
}

fn length(to: &mut Vec<u8>, length: usize) {
    to.extend((length as u16).to_le_bytes());
}

fn times(to: &mut Vec<u8>, times: &[i64]) {
    length(to, times.len());
    times.iter().for_each(|&time| number(to, time as u64));
}

/// What stands before the calls.
pub fn encode_lent(sizes: Sizes, table: &[i32], scratch: usize) -> Vec<u8> {
    let mut bytes = Vec::new();
    for size in [sizes.inputs, sizes.outputs, sizes.vertices] {
        number(&mut bytes, size);
    }
    length(&mut bytes, table.len());
    length(&mut bytes, scratch);
    for cell in table {
        bytes.extend(cell.to_le_bytes());
    }
    bytes
}

/// Another library, put between the calls.
pub fn encode_library(to: &mut Vec<u8>, library: &[i32]) {
    to.push(PUT_LIBRARY);
    length(to, library.len());
    for cell in library {
        to.extend(cell.to_le_bytes());
    }
}

/// The lines that `replay` prints for a call, but for the last, on the scratch.
pub fn text(call: &Call, performed: &Performed, table: &[i32], library: &[i32]) -> String {
    let mut text = match performed.answer {
        Answer::Refused(number) => format!("refused {number}\n"),
        Answer::RefusedRead(RefusedRead { number, offset }) => {
            format!("refused {number} at {offset}\n")
        }
        Answer::Accepted(Accepted::Left(arcs)) => format!("left {arcs}\n"),
        Answer::Accepted(Accepted::Ran(ran)) => {
            format!("accepted {} arcs {}\n", ran.outcome.steps, ran.outcome.arcs)
        }
        Answer::Accepted(Accepted::Done) => "ok\n".to_string(),
        Answer::Accepted(Accepted::Bytes(bytes)) => format!("bytes {bytes}\n"),
        Answer::Accepted(Accepted::Board(sizes)) => {
            format!("board {} {} {}\n", sizes.inputs, sizes.outputs, sizes.vertices)
        }
        Answer::Accepted(Accepted::Found(Some(Found { vertex, saving }))) => {
            format!("star {vertex} saving {saving}\n")
        }
        Answer::Accepted(Accepted::Found(None)) => "none\n".to_string(),
    };
    if matches!(call, Call::ReadLibrary { .. }) {
        put_cells(&mut text, "library", library);
    }
    put_cells(&mut text, "table", table);
    for cells in &performed.destinations {
        text.push_str("destination");
        for cell in cells {
            let _ = write!(text, " {cell}");
        }
        text.push('\n');
    }
    text
}

fn put_cells(text: &mut String, name: &str, cells: &[i32]) {
    text.push_str(name);
    for &cell in cells {
        if cell == Board::ABSENT {
            text.push_str(" -");
        } else {
            let _ = write!(text, " {cell}");
        }
    }
    text.push('\n');
}
