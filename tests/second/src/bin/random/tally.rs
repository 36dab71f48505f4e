//! How often each call was accepted, and refused by which number, and with how much scratch; which cases
//! of ticket 6 the shares of inputs were, and of ticket 7 the stars found; how many rounds the runs took,
//! and how many made stars; how many margins were present and absent; which loads the cells of files had;
//! which libraries were read, and which boards under them.

use crate::libraries;
use crate::loads::{self, Cell};
use crate::shares::{self, Share};
use crate::stars::{self, Cases};
use second::board::Board;
use second::delays::NONE;
use second::library::{CODES, MOST_TICKS};
use second::literal::{Ran, Stars};
use second::records::RefusedRead;
use second::refusal;

/// A call, and the numbers by which it can be refused.
pub struct Kind {
    pub name: &'static str,
    refusals: &'static [u64],
}

const fn kind(name: &'static str, refusals: &'static [u64]) -> Kind {
    Kind { name, refusals }
}

/// The calls of `replay` stand at the byte that it knows them by.
pub const KINDS: [Kind; 19] = [
    kind("", &[]),
    kind("shrink", &[1, 2, 3, 4, 5, 6, 7, 10, 14]),
    kind("share inputs", &[1, 2, 3, 4, 5, 6, 7, 8, 11, 13, 14]),
    kind("share outputs", &[1, 2, 3, 4, 5, 6, 7, 11, 12, 13, 14]),
    kind("prune", &[1, 2, 3, 4, 5, 6, 13]),
    kind("merge back", &[1, 2, 3, 4, 5, 6, 7, 10, 14]),
    kind("star", &[1, 2, 3, 4, 5, 6, 7, 8, 9, 10, 13, 14]),
    kind("run", &[1, 2, 3, 4, 5, 6]),
    kind("matrix", &[1, 2, 3, 4, 5, 6, 21]),
    kind("arrivals", &[1, 2, 3, 4, 5, 6, 22]),
    kind("write", &[1, 2, 3, 4, 5, 6, 21]),
    kind("read", &[1, 2, 3, 5, 6, 15, 16, 17, 18, 19, 20, 23]),
    kind("margins", &[1, 2, 3, 4, 5, 6, 22]),
    kind("read library", &[15, 16, 17, 18, 19, 20, 23]),
    kind("thin", &[1, 5, 6, 15, 16, 17, 18, 19, 20]),
    kind("find star", &[1, 2, 3, 4, 5, 6]),
    kind("C matrix", &[1, 2, 3, 4, 5, 6, 21]),
    kind("C shrink", &[1, 2, 3, 4, 5, 6, 7, 10, 14]),
    kind("C prune", &[1, 2, 3, 4, 5, 6, 13]),
];

pub const READ: usize = 11;
pub const THIN: usize = 14;
pub const C_MATRIX: usize = 16;
#[cfg(feature = "host")]
pub const C_SHRINK: usize = 17;
#[cfg(feature = "host")]
pub const C_PRUNE: usize = 18;

/// Number 0 counts the accepted calls.
const NUMBERS: usize = 24;

/// The calls by their cells of scratch. The first are those of boards where N × N is more than 4N, the
/// last those of boards where it is less.
const SCRATCHES: [&str; 6] = [
    "accepted with 4N",
    "accepted with more, below N x N",
    "accepted with N x N",
    "accepted with more",
    "refused by 3 with 4N - 1, below N x N",
    "refused by 3 with N x N and more",
];

/// The tries of runs to share inputs where b had two arcs out.
const TRIES: [&str; 3] = ["accepted", "13", "14"];

/// The runs with stars.
const STARRED: [&str; 3] = ["runs that made some", "two or more", "and took other steps after one"];

/// Of so many runs one must have made a star.
const RUNS_FOR_A_STAR: u64 = 100;

/// Runs with more rounds are counted with the last.
const ROUNDS: usize = 8;

/// How many runs must have had exactly so many rounds that accepted something.
const LEAST_RUNS: [(usize, u64); 2] = [(2, 200), (3, 20)];

/// The margins of accepted calls: one is absent without arrival, without required time, without both.
const MARGINS: [&str; 4] = ["present", "without arrival", "without required time", "without both"];

/// The calls that read files.
const READERS: [usize; 2] = [READ, THIN];

/// The cells of accepted files: by their load, and whether they come before or after records of it.
const CELLS: [&str; 8] = [
    "load 0",
    "load 1",
    "load 2 to 4",
    "load 5 to 49",
    "load 50 to 87",
    "load 88",
    "before its load",
    "after its load",
];
const BEFORE: usize = 6;
const AFTER: usize = 7;

/// A cell of an accepted file has no greater load: its target leads neither to itself nor to an input.
const MOST_LOAD: usize = 88;

/// The answers to a file that has a cell of a greater load; the first, accepted, can't be.
const OVERLOADED: [u64; 3] = [0, 5, 6];

/// The libraries read: accepted, and refused by 23; whether an accepted one took the place of odd cells.
const LIBRARIES: [&str; 5] =
    ["empty", "with records", "23 for the length", "23 for a delay", "over odd cells"];
const OVER_ODD: usize = 4;

/// The faults that competed in a library, the one that won first.
const FAULTS: [(u64, u64); 6] = [(15, 17), (15, 18), (16, 15), (17, 23), (19, 20), (23, 18)];

/// The boards read: refused by their library, and accepted with cells of such a kind.
const BOARDS: [&str; 6] = [
    "23 for its length",
    "23 for a cell",
    "17 for a built-in code that it lacks",
    "17 for a code above 31",
    "a code above 4",
    "the most ticks under load 50 to 88",
];
const ABOVE_4: usize = 4;
const MOST: usize = 5;

/// What a board refused by 23 would have got under the built-in library.
const OTHERWISE: [u64; 12] = [0, 1, 2, 3, 5, 6, 15, 16, 17, 18, 19, 20];

#[derive(Default)]
pub struct Tally {
    counts: [[u64; NUMBERS]; KINDS.len()],
    scratches: [[u64; SCRATCHES.len()]; KINDS.len()],
    shares: [u64; shares::CASES.len()],
    tries: [u64; TRIES.len()],
    found: [u64; stars::FOUND.len()],
    none: [u64; stars::NONE.len()],
    starred: [u64; STARRED.len()],
    runs: [u64; ROUNDS],
    margins: [u64; MARGINS.len()],
    cells: [[u64; CELLS.len()]; READERS.len()],
    /// The files with a cell of a load above the most.
    overloaded: [[u64; OVERLOADED.len()]; READERS.len()],
    libraries: [u64; LIBRARIES.len()],
    faults: [u64; FAULTS.len()],
    boards: [u64; BOARDS.len()],
    otherwise: [u64; OTHERWISE.len()],
}

impl Tally {
    pub fn count(&mut self, kind: usize, number: u64) {
        self.counts[kind][number as usize] += 1;
    }

    /// A call's N, if it has one, the cells of its scratch, and the number, 0 if accepted.
    pub fn count_scratch(
        &mut self,
        kind: usize,
        vertices: Option<u64>,
        scratch: usize,
        number: u64,
    ) {
        if let Some(class) = vertices.and_then(|n| scratch_class(n as usize, scratch, number)) {
            self.scratches[kind][class] += 1;
        }
    }

    /// A share of inputs in a list.
    pub fn count_share(&mut self, share: &Share) {
        for (count, is) in self.shares.iter_mut().zip(share.cases()) {
            *count += u64::from(is);
        }
    }

    /// A star found, or none.
    pub fn count_found(&mut self, cases: &Cases) {
        let counts = self.found.iter_mut().chain(&mut self.none);
        for (count, &is) in counts.zip(cases.found.iter().chain(&cases.none)) {
            *count += u64::from(is);
        }
    }

    /// A run, by its rounds that accepted something, its tries to share inputs, and its stars.
    pub fn count_run(&mut self, ran: &Ran) {
        self.runs[(ran.rounds as usize).min(ROUNDS - 1)] += 1;
        let tries = [ran.forks.accepted, ran.forks.nothing_saved, ran.forks.new_delay];
        for (count, tries) in self.tries.iter_mut().zip(tries) {
            *count += tries;
        }
        let Stars { made, steps_after } = ran.stars;
        for (count, is) in self.starred.iter_mut().zip([made > 0, made > 1, steps_after > 0]) {
            *count += u64::from(is);
        }
    }

    /// The answers of an accepted call, one for each vertex.
    pub fn count_margins(&mut self, arrivals: &[i64], required: &[i64]) {
        for (&arrival, &required) in arrivals.iter().zip(required) {
            let lacking = usize::from(arrival == NONE) + 2 * usize::from(required == NONE);
            self.margins[lacking] += 1;
        }
    }

    /// A file, the library, and the number by which the call that read it was refused, 0 if accepted.
    pub fn count_file(&mut self, kind: usize, file: &[u8], library: &[i32], number: u64) {
        let Some(reader) = READERS.iter().position(|&reader| reader == kind) else { return };
        // by another number a file may be refused before its end
        let Some(answer) = OVERLOADED.iter().position(|&answer| answer == number) else { return };
        let cells = loads::cells(file);
        let above = cells.iter().any(|cell| cell.load > MOST_LOAD);
        self.overloaded[reader][answer] += u64::from(above);
        if number == 0 {
            let most =
                |cell: &Cell| cell.load >= 50 && library[usize::from(cell.code)] == MOST_TICKS;
            self.boards[ABOVE_4] += u64::from(cells.iter().any(|cell| cell.code > 4));
            self.boards[MOST] += u64::from(cells.iter().any(most));
            let counts = &mut self.cells[reader];
            for Cell { load, comes_before, comes_after, .. } in cells {
                counts[load_class(load)] += 1;
                counts[BEFORE] += u64::from(comes_before);
                counts[AFTER] += u64::from(comes_after);
            }
        }
    }

    /// A refused read of a board, and the number that it would get under the built-in library.
    pub fn count_refused(
        &mut self,
        file: &[u8],
        library: &[i32],
        refused: RefusedRead,
        otherwise: u64,
    ) {
        if let Some(class) = board_class(file, library, refused) {
            self.boards[class] += 1;
        }
        let answer = OTHERWISE.iter().position(|&number| number == otherwise);
        if let (refusal::LIBRARY, Some(answer)) = (refused.number, answer) {
            self.otherwise[answer] += 1;
        }
    }

    /// A library file, the cells as they were lent, and the refusal.
    pub fn count_library(&mut self, file: &[u8], lent: &[i32], refused: Option<RefusedRead>) {
        if let Some(class) = library_class(file, lent, refused) {
            self.libraries[class] += 1;
        }
        let Some(refused) = refused else {
            self.libraries[OVER_ODD] += u64::from(!libraries::is_sound(lent));
            return;
        };
        let second = libraries::second_fault(file, refused);
        let same = |&(first, other): &(u64, u64)| refused.number == first && second == Some(other);
        if let Some(pair) = FAULTS.iter().position(same) {
            self.faults[pair] += 1;
        }
    }

    pub fn add(&mut self, other: &Tally) {
        for (count, other) in self.all_mut().zip(other.all()) {
            *count += other;
        }
    }

    fn all(&self) -> impl Iterator<Item = &u64> {
        let counts = self.counts.as_flattened().iter().chain(self.scratches.as_flattened());
        let counts = counts.chain(&self.shares).chain(&self.tries);
        let counts = counts.chain(&self.found).chain(&self.none).chain(&self.starred);
        let counts = counts.chain(&self.runs).chain(&self.margins);
        let counts = counts.chain(self.cells.as_flattened()).chain(self.overloaded.as_flattened());
        let counts = counts.chain(&self.libraries).chain(&self.faults);
        counts.chain(&self.boards).chain(&self.otherwise)
    }

    fn all_mut(&mut self) -> impl Iterator<Item = &mut u64> {
        let counts = self.counts.as_flattened_mut().iter_mut();
        let counts = counts.chain(self.scratches.as_flattened_mut());
        let counts = counts.chain(&mut self.shares).chain(&mut self.tries);
        let counts = counts.chain(&mut self.found).chain(&mut self.none).chain(&mut self.starred);
        let counts = counts.chain(&mut self.runs).chain(&mut self.margins);
        let counts =
            counts.chain(self.cells.as_flattened_mut()).chain(self.overloaded.as_flattened_mut());
        let counts = counts.chain(&mut self.libraries).chain(&mut self.faults);
        counts.chain(&mut self.boards).chain(&mut self.otherwise)
    }

    pub fn print(&self, kinds: usize) {
        for (kind, row) in KINDS.iter().zip(&self.counts).take(kinds).skip(1) {
            print!("{:13} accepted {:6}", kind.name, row[0]);
            for (number, &count) in row.iter().enumerate().skip(1) {
                if count > 0 {
                    print!("  {number}:{count}");
                }
            }
            println!();
        }
        print!("every call    accepted {:6}", self.total(0));
        for number in 1..NUMBERS {
            print!("  {number}:{}", self.total(number));
        }
        println!();
        print!("calls by scratch");
        for (class, which) in SCRATCHES.iter().enumerate() {
            print!("  {which}:{}", self.scratches.iter().map(|row| row[class]).sum::<u64>());
        }
        println!();
        print!("shares of inputs by ticket 6");
        for (which, count) in shares::CASES.iter().zip(&self.shares) {
            print!("  {which}:{count}");
        }
        println!();
        print!("tries of runs by ticket 6");
        for (which, count) in TRIES.iter().zip(&self.tries) {
            print!("  {which}:{count}");
        }
        println!();
        print!("stars by ticket 7");
        for (which, count) in self.stars() {
            print!("  {which}:{count}");
        }
        println!("  of:{}", self.all_runs());
        print!("runs by rounds that accepted something");
        for (rounds, count) in self.runs.iter().enumerate() {
            print!("  {rounds}:{count}");
        }
        println!();
        print!("margins answered");
        for (which, count) in MARGINS.iter().zip(&self.margins) {
            print!("  {which}:{count}");
        }
        println!();
        for (reader, &kind) in READERS.iter().enumerate() {
            print!("cells by {}", KINDS[kind].name);
            for (which, count) in CELLS.iter().zip(&self.cells[reader]) {
                print!("  {which}:{count}");
            }
            print!("  files with more load");
            for (number, count) in OVERLOADED.iter().zip(&self.overloaded[reader]) {
                print!("  {number}:{count}");
            }
            println!();
        }
        print!("libraries read");
        for (which, count) in LIBRARIES.iter().zip(&self.libraries) {
            print!("  {which}:{count}");
        }
        for ((first, second), count) in FAULTS.iter().zip(&self.faults) {
            print!("  {first} before {second}:{count}");
        }
        println!();
        print!("boards under libraries");
        for (which, count) in BOARDS.iter().zip(&self.boards) {
            print!("  {which}:{count}");
        }
        print!("  23 before");
        for (number, count) in OTHERWISE.iter().zip(&self.otherwise) {
            print!("  {number}:{count}");
        }
        println!();
    }

    /// The calls that find stars, by their cases, and the runs that made some.
    fn stars(&self) -> impl Iterator<Item = (&str, u64)> {
        let names = stars::FOUND.iter().chain(&stars::NONE).chain(&STARRED).copied();
        let counts = self.found.iter().chain(&self.none).chain(&self.starred).copied();
        names.zip(counts)
    }

    fn all_runs(&self) -> u64 {
        self.runs.iter().sum()
    }

    fn total(&self, number: usize) -> u64 {
        self.counts.iter().map(|row| row[number]).sum()
    }

    /// What never occurred though it must, or occurred though it can't.
    pub fn faults(&self, kinds: usize) -> Vec<String> {
        let mut faults = Vec::new();
        for (kind, row) in KINDS.iter().zip(&self.counts).take(kinds).skip(1) {
            if row[0] == 0 {
                faults.push(format!("{} was never accepted", kind.name));
            }
            for (number, &count) in row.iter().enumerate().skip(1) {
                let possible = kind.refusals.contains(&(number as u64));
                if possible && count == 0 {
                    faults.push(format!("{} was never refused by {number}", kind.name));
                }
                if !possible && count > 0 {
                    faults.push(format!("{} was refused by {number}", kind.name));
                }
            }
        }
        let has_scratch = |kind: &Kind| kind.refusals.contains(&refusal::SHORT_SCRATCH);
        let kinds = KINDS.iter().zip(&self.scratches).take(kinds);
        for (kind, row) in kinds.filter(|(kind, _)| has_scratch(kind)) {
            for (which, &count) in SCRATCHES.iter().zip(row) {
                if count == 0 {
                    faults.push(format!("{} was never {which} cells of scratch", kind.name));
                }
            }
        }
        for (which, &count) in shares::CASES.iter().zip(&self.shares) {
            if count == 0 {
                faults.push(format!("no share of inputs was {which}"));
            }
        }
        for (which, &count) in TRIES.iter().zip(&self.tries) {
            if count == 0 {
                faults.push(format!(
                    "no try of a run to share inputs with two arcs out of b was {which}"
                ));
            }
        }
        for (which, count) in self.stars() {
            if count == 0 {
                faults.push(format!("stars: never {which}"));
            }
        }
        if RUNS_FOR_A_STAR * self.starred[0] < self.all_runs() {
            faults.push(format!("fewer than one run in {RUNS_FOR_A_STAR} made a star"));
        }
        for (rounds, least) in LEAST_RUNS {
            let count = self.runs[rounds];
            if count < least {
                faults.push(format!("{count} runs of {rounds} rounds, fewer than {least}"));
            }
        }
        for (which, &count) in MARGINS.iter().zip(&self.margins) {
            if count == 0 {
                faults.push(format!("no margin {which} was answered"));
            }
        }
        for (reader, &kind) in READERS.iter().enumerate() {
            let name = KINDS[kind].name;
            for (which, &count) in CELLS.iter().zip(&self.cells[reader]) {
                if count == 0 {
                    faults.push(format!("{name} accepted no cell {which}"));
                }
            }
            for (&number, &count) in OVERLOADED.iter().zip(&self.overloaded[reader]) {
                if number == 0 && count > 0 {
                    faults.push(format!("{name} accepted a load above {MOST_LOAD}"));
                }
                if number > 0 && count == 0 {
                    faults.push(format!("{name} refused no load above {MOST_LOAD} by {number}"));
                }
            }
        }
        for (which, &count) in LIBRARIES.iter().zip(&self.libraries) {
            if count == 0 {
                faults.push(format!("no library was read: {which}"));
            }
        }
        for ((first, second), &count) in FAULTS.iter().zip(&self.faults) {
            if count == 0 {
                faults.push(format!("no library was refused by {first} before {second}"));
            }
        }
        for (which, &count) in BOARDS.iter().zip(&self.boards) {
            if count == 0 {
                faults.push(format!("no board was read under a library: {which}"));
            }
        }
        for (number, &count) in OTHERWISE.iter().zip(&self.otherwise) {
            if count == 0 {
                faults.push(format!("no board was refused by 23 before {number}"));
            }
        }
        faults
    }
}

/// A call's place among `SCRATCHES`.
fn scratch_class(vertices: usize, scratch: usize, number: u64) -> Option<usize> {
    // by another number any N is refused
    if !matches!(number, 0 | refusal::SHORT_SCRATCH) {
        return None;
    }
    let (least, cells) = (Board::SCRATCH_PER_VERTEX * vertices, vertices * vertices);
    match number {
        0 if scratch < cells => Some(usize::from(scratch > least)),
        0 => Some(if scratch == cells { 2 } else { 3 }),
        _ if scratch >= cells => Some(5),
        _ => (scratch + 1 == least).then_some(4),
    }
}

/// A load's place among `CELLS`.
fn load_class(load: usize) -> usize {
    match load {
        0 => 0,
        1 => 1,
        2..=4 => 2,
        5..=49 => 3,
        50..=87 => 4,
        _ => 5,
    }
}

/// A refused board's place among `BOARDS`.
fn board_class(file: &[u8], library: &[i32], refused: RefusedRead) -> Option<usize> {
    match (refused.number, &file[refused.offset as usize..]) {
        (refusal::LIBRARY, _) => Some(usize::from(library.len() == CODES)),
        (refusal::FIELD, &[b'C', b'E', from, to, code, ..]) if from.max(to) < file[4] => match code
        {
            0..=4 => Some(2),
            32.. => Some(3),
            _ => None,
        },
        _ => None,
    }
}

/// A library's place among `LIBRARIES`.
fn library_class(file: &[u8], lent: &[i32], refused: Option<RefusedRead>) -> Option<usize> {
    match refused.map(|refused| refused.number) {
        None => Some(usize::from(!file.starts_with(b"EN"))),
        Some(refusal::LIBRARY) => Some(if lent.len() == CODES { 3 } else { 2 }),
        _ => None,
    }
}
