//! Random boards and lists of calls: the second implementation against the proved programs.
//!
//!     random [--seed S] [--lists L] [--only K]
//!
//! Run it at the repository's root. Each list is one process of `replay`, whose whole output is
//! compared; some lists also give a file to `thin`; with the feature `host` the C exports get each
//! list's first and last table. Runs are held against the literal one. Demand 3 and the margins are
//! checked on the second implementation's own side. `--only` repeats one list of a seed alone.

mod blocks;
mod boards;
mod calls;
mod demand3;
mod files;
mod forks;
#[cfg(feature = "host")]
mod host;
mod ladders;
mod libraries;
mod lists;
mod loads;
mod programs;
mod rng;
mod shares;
mod stars;
mod tally;

use calls::{Accepted, Answer, Call};
use demand3::Claim;
use lists::Maker;
use programs::{Expected, Program};
use rng::Rng;
use second::board::Sizes;
use second::library::BUILT_IN;
use second::literal::{self, Ran};
use second::{file, run, thin};
use shares::Share;
use std::panic::{catch_unwind, AssertUnwindSafe};
use std::path::{Path, PathBuf};
use std::process::ExitCode;
use std::sync::atomic::{AtomicBool, AtomicU64, Ordering};
use tally::Tally;

const SEED: u64 = 20_261_116;
const LISTS: u64 = 24_000;
const THREADS: u64 = 2;

/// Where a list that is repeated alone is kept.
const SHOWN: &str = "target/second/list";

/// The calls counted: those over the C exports only where they are linked.
const KINDS: usize = if cfg!(feature = "host") { tally::KINDS.len() } else { tally::C_MATRIX };

struct Options {
    seed: u64,
    lists: u64,
    only: Option<u64>,
}

struct Programs {
    replay: Program,
    thin: Program,
}

fn main() -> ExitCode {
    match options().and_then(|options| test(&options)) {
        Ok(()) => ExitCode::SUCCESS,
        Err(fault) => {
            println!("{fault}");
            ExitCode::FAILURE
        }
    }
}

fn options() -> Result<Options, String> {
    let mut options = Options { seed: SEED, lists: LISTS, only: None };
    let mut words = std::env::args().skip(1);
    while let Some(word) = words.next() {
        let number = words.next().and_then(|number| number.parse().ok());
        match (word.as_str(), number) {
            ("--seed", Some(seed)) => options.seed = seed,
            ("--lists", Some(lists)) => options.lists = lists,
            ("--only", Some(list)) => options.only = Some(list),
            _ => return Err("usage: random [--seed S] [--lists L] [--only K]".into()),
        }
    }
    Ok(options)
}

fn test(options: &Options) -> Result<(), String> {
    let programs = Programs {
        replay: Program::find("REPLAY", "target/bin/replay")?,
        thin: Program::find("THIN", "target/bin/thin")?,
    };
    if let Some(list) = options.only {
        one_list(options.seed, list, &programs, &spool(0), &mut Tally::default(), true)?;
        println!("no difference");
        return Ok(());
    }

    let next = AtomicU64::new(0);
    let failed = AtomicBool::new(false);
    let work = |thread: u64| -> Result<Tally, String> {
        let spool = spool(thread);
        let mut tally = Tally::default();
        loop {
            let list = next.fetch_add(1, Ordering::Relaxed);
            if list >= options.lists || failed.load(Ordering::Relaxed) {
                let _ = std::fs::remove_file(&spool);
                return Ok(tally);
            }
            // a panic of the second implementation is a failure of the list too
            let tested = catch_unwind(AssertUnwindSafe(|| {
                one_list(options.seed, list, &programs, &spool, &mut tally, false)
            }));
            tested.unwrap_or_else(|_| Err("a panic".into())).map_err(|fault| {
                failed.store(true, Ordering::Relaxed);
                let seed = options.seed;
                format!("--seed {seed} --only {list}: {fault}")
            })?;
        }
    };
    let outcomes: Vec<Result<Tally, String>> = std::thread::scope(|scope| {
        let work = &work;
        let threads: Vec<_> = (0..THREADS).map(|t| scope.spawn(move || work(t))).collect();
        let died = || Err("a thread died".to_string());
        threads.into_iter().map(|thread| thread.join().unwrap_or_else(|_| died())).collect()
    });

    let mut tally = Tally::default();
    for outcome in outcomes {
        tally.add(&outcome?);
    }
    println!("seed {}, {} lists", options.seed, options.lists);
    tally.print(KINDS);
    let faults = tally.faults(KINDS);
    if faults.is_empty() {
        println!("no difference");
        Ok(())
    } else {
        Err(faults.join("\n"))
    }
}

/// A file for inputs that a pipe doesn't hold.
fn spool(thread: u64) -> PathBuf {
    std::env::temp_dir().join(format!("random-{}-{thread}", std::process::id()))
}

/// One list: made, predicted, held to demand 3, and compared.
fn one_list(
    seed: u64,
    list: u64,
    programs: &Programs,
    spool: &Path,
    tally: &mut Tally,
    show: bool,
) -> Result<(), String> {
    let mut rng = Rng::new(seed, list);
    let lent = boards::lent(&mut rng);
    let sizes = lent.sizes;
    let mut table = lent.table.clone();
    let mut library = BUILT_IN.to_vec();
    let mut claim = Claim::new(&mut rng, sizes, &table);
    let mut input = calls::encode_lent(sizes, &table, lent.scratch);
    let mut expected = Vec::new();
    if show {
        println!("{sizes:?}, scratch {}, table {table:?}", lent.scratch);
    }
    let (mut place, mut calls) = (0, lists::calls(&mut rng, table.len()));
    let mut has_run = false;
    while place < calls {
        if let Some(cells) = libraries::put(&mut rng, &library) {
            library = cells;
            calls::encode_library(&mut input, &library);
            if show {
                println!("library {library:?}");
            }
        }
        let mut maker = Maker {
            rng: &mut rng,
            sizes,
            scratch: lent.scratch,
            library: &library,
            stars: &lent.stars,
        };
        let call = match place {
            0 => maker.first(&table),
            _ if has_run => Call::FindStar,
            _ => maker.call(&table),
        };
        let (before, library_before) = (table.clone(), library.clone());
        let performed = call.perform(sizes, &mut table, lent.scratch, &mut library);
        has_run = matches!(performed.answer, Answer::Accepted(Accepted::Ran(_)));
        // a run's call for a star is one more
        calls += usize::from(has_run);
        let (kind, number) = (call.code().into(), performed.answer.number());
        tally.count(kind, number);
        tally.count_scratch(kind, call.vertices(sizes), lent.scratch, number);
        match (&call, performed.answer) {
            (_, Answer::Accepted(Accepted::Ran(ran))) => {
                tally.count_run(&ran);
                check_peer(sizes, before, lent.scratch, ran, &table)?;
            }
            (&Call::ShareInputs { a, b, .. }, answer) => {
                let (before, after) = (&before, &table);
                tally.count_share(&Share { sizes, a, b, number: answer.number(), before, after });
            }
            (_, Answer::Accepted(Accepted::Found(found))) => {
                tally.count_found(&stars::cases(sizes, &table, found)?);
            }
            (Call::Read { bytes }, answer) => {
                count_read(bytes, before, lent.scratch, &library, answer, tally);
            }
            (Call::ReadLibrary { bytes }, answer) => {
                tally.count_library(bytes, &library_before, answer.refused_read());
            }
            _ => {}
        }
        if let (Answer::Accepted(Accepted::Done), [arrivals, required, _]) =
            (performed.answer, &performed.destinations[..])
        {
            tally.count_margins(arrivals, required);
        }
        if show {
            println!("call {place}: {call:?}: {:?}", performed.answer);
        }
        if matches!(call, Call::Read { .. }) {
            // another table, another claim
            claim = Claim::new(&mut rng, sizes, &table);
        } else if let Some(claim) = &mut claim {
            claim
                .check(&mut rng, &call, performed.answer, &table)
                .map_err(|fault| format!("call {place}: {call:?}: {fault}"))?;
        }
        call.encode(&mut input);
        expected.push(Expected {
            text: calls::text(&call, &performed, &table, &library),
            scratch: call.scratch_bound(sizes, performed.answer),
        });
        place += 1;
    }
    if show {
        let _ = std::fs::write(SHOWN, &input);
        println!("what replay reads is in {SHOWN}");
    }
    let output = programs.replay.output(&input, spool)?;
    programs::compare(&output, &expected)?;

    #[cfg(feature = "host")]
    {
        host::check(&mut rng, sizes, &lent.table, tally)?;
        host::check(&mut rng, sizes, &table, tally)?;
    }

    if rng.chance(50) {
        check_thin(&lists::thin_input(&mut rng), programs, spool, tally)?;
    }
    Ok(())
}

/// A board's read, on the table as it was before.
fn count_read(
    bytes: &[u8],
    mut table: Vec<i32>,
    scratch: usize,
    library: &[i32],
    answer: Answer,
    tally: &mut Tally,
) {
    tally.count_file(tally::READ, bytes, library, answer.number());
    if let Some(refused) = answer.refused_read() {
        let otherwise = file::read(bytes, &mut table, scratch, &BUILT_IN).err();
        tally.count_refused(bytes, library, refused, otherwise.map_or(0, |other| other.number));
    }
}

/// The run that the benchmark takes leaves the same.
fn check_peer(
    sizes: Sizes,
    mut table: Vec<i32>,
    scratch: usize,
    ran: Ran,
    after: &[i32],
) -> Result<(), String> {
    let outcome = run::run(sizes, &mut table, scratch);
    if outcome != Ok(ran.outcome) || table != after {
        return Err(format!("the literal run: {ran:?}, the other: {outcome:?}"));
    }
    Ok(())
}

fn check_thin(
    bytes: &[u8],
    programs: &Programs,
    spool: &Path,
    tally: &mut Tally,
) -> Result<(), String> {
    let run = |sizes, table: &mut [i32], scratch| {
        let ran = literal::run(sizes, table, scratch)?;
        tally.count_run(&ran);
        Ok(ran.outcome)
    };
    let expected = thin::thin_by(run, bytes);
    let number = refusal_in(&expected);
    tally.count(tally::THIN, number);
    tally.count_file(tally::THIN, bytes, &BUILT_IN, number);
    let output = programs.thin.output(bytes, spool)?;
    if output != expected.as_bytes() {
        let got = String::from_utf8_lossy(&output);
        return Err(format!("thin on {bytes:?}\nexpected:\n{expected}got:\n{got}"));
    }
    Ok(())
}

/// The number in a text of `thin`, 0 if it isn't a refusal.
fn refusal_in(text: &str) -> u64 {
    let number = text.strip_prefix("refused ").and_then(|rest| rest.split(' ').next());
    number.and_then(|number| number.parse().ok()).unwrap_or(0)
}
