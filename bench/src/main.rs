//! The proved calls against the second implementation's.
//!
//!     bench times                   a line for each board and call: board, call, time ratio
//!     bench once BOARD CALL SIDE    one call, for counting its instructions
//!
//! `times` also checks that both sides answer and leave the same.

mod boards;
mod sides;

use second::board::Sizes;
use second::library::BUILT_IN;
use sides::{Lent, Side, CALLS};
use std::hint::black_box;
use std::process::ExitCode;
use std::time::{Duration, Instant};

/// Calls of each side that a median is of, at most and at least, and the time after which no more
/// are made.
const REPEATS: std::ops::Range<usize> = 11..2_001;
const ENOUGH: Duration = Duration::from_secs(2);

fn main() -> ExitCode {
    let words: Vec<String> = std::env::args().skip(1).collect();
    let words: Vec<&str> = words.iter().map(String::as_str).collect();
    let outcome = match words[..] {
        ["times"] => times(),
        ["once", board, call, side] => once(board, call, side),
        _ => Err("usage: bench times | bench once BOARD CALL SIDE".into()),
    };
    match outcome {
        Ok(()) => ExitCode::SUCCESS,
        Err(fault) => {
            eprintln!("bench: {fault}");
            ExitCode::FAILURE
        }
    }
}

fn lent(name: &str) -> Result<Lent, String> {
    let (board, table) = boards::board(name).ok_or(format!("no board {name}"))?;
    let sizes = Sizes {
        inputs: board.inputs as u64,
        outputs: board.outputs as u64,
        vertices: board.vertices as u64,
    };
    let mut file = vec![0; second::thin::MOST_BYTES];
    let written = second::file::write(sizes, &table, table.len(), &mut file)
        .map_err(|number| format!("{name}: {number}"))?;
    file.truncate(written as usize);
    if name == boards::CELLS {
        file = boards::file_of_cells(&board, &table);
    }
    Ok(Lent {
        sizes,
        scratch: vec![0; 4 * board.vertices],
        matrix: vec![0; board.inputs * board.outputs],
        at_inputs: (0..board.inputs).map(|i| 100 * i as i64).collect(),
        at_outputs: (0..board.outputs).map(|j| 10_000 - 100 * j as i64).collect(),
        arrival: vec![0; board.vertices],
        required: vec![0; board.vertices],
        margin: vec![0; board.vertices],
        vertex: 0,
        saving: 0,
        table,
        file,
        library: BUILT_IN.to_vec(),
    })
}

fn once(board: &str, call: &str, side: &str) -> Result<(), String> {
    let mut lent = lent(board)?;
    let (_, ours, rust) =
        CALLS.into_iter().find(|(name, ..)| *name == call).ok_or(format!("no call {call}"))?;
    black_box(match side {
        "ours" => ours(&mut lent),
        "rust" => rust(&mut lent),
        _ => return Err(format!("no side {side}")),
    });
    Ok(())
}

fn times() -> Result<(), String> {
    for board in boards::NAMES {
        for (call, ours, rust) in CALLS.into_iter().filter(|&(call, ..)| is_measured(board, call)) {
            let first = lent(board)?;
            same(&first, ours, rust).map_err(|fault| format!("{call} on {board}: {fault}"))?;
            let (of_ours, of_rust) = medians(&first, ours, rust);
            println!(
                "{board} {call} {:.2} {:.1} {:.1}",
                of_ours.as_secs_f64() / of_rust.as_secs_f64(),
                of_ours.as_secs_f64() * 1e6,
                of_rust.as_secs_f64() * 1e6,
            );
        }
    }
    Ok(())
}

/// Reading is measured on the fullest files and the finder where a number is free, the other calls on
/// the other boards.
fn is_measured(board: &str, call: &str) -> bool {
    match board {
        boards::FULLEST | boards::CELLS => call == "read",
        boards::SPARE | boards::EVEN => call == "find_star",
        _ => !["read", "find_star"].contains(&call),
    }
}

/// Both sides answer the same and leave the same in the table and in the lists of answers.
fn same(first: &Lent, ours: Side, rust: Side) -> Result<(), String> {
    let (mut one, mut other) = (first.clone(), first.clone());
    let (answer, expected) = (ours(&mut one), rust(&mut other));
    if answer != expected {
        return Err(format!("ours answers {answer}, Rust {expected}"));
    }
    let left = |lent: Lent| {
        let found = (lent.vertex, lent.saving);
        (lent.table, lent.matrix, lent.arrival, lent.required, lent.margin, found)
    };
    if left(one) != left(other) {
        return Err("the two leave different cells".into());
    }
    Ok(())
}

/// The median time of a call, of ours and of Rust's, called in turn.
fn medians(first: &Lent, ours: Side, rust: Side) -> (Duration, Duration) {
    let mut lent = first.clone();
    let mut time = |side: Side| {
        lent.table.copy_from_slice(&first.table);
        let start = Instant::now();
        black_box(side(black_box(&mut lent)));
        start.elapsed()
    };
    let (mut of_ours, mut of_rust) = (Vec::new(), Vec::new());
    let start = Instant::now();
    while of_ours.len() < REPEATS.start || of_ours.len() < REPEATS.end && start.elapsed() < ENOUGH {
        of_ours.push(time(ours));
        of_rust.push(time(rust));
    }
    (median(of_ours), median(of_rust))
}

fn median(mut times: Vec<Duration>) -> Duration {
    times.sort();
    times[times.len() / 2]
}
