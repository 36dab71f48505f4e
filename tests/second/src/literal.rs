//! The automatic run in document 01's own words: each try is a whole call on the table as it then is, and
//! nothing is remembered between tries. The random test takes this run, the benchmark `run`.
//!
//! All is `inline`, which compiles it with the test alone and leaves the benchmark's code as it is.

use crate::board::{Board, Sizes};
use crate::find_star::{find_star, Found};
use crate::refusal::{self, Refusal};
use crate::run::Outcome;
use crate::steps;

/// What a run answers, how many of its rounds accepted something, its tries of ticket 6 and its stars.
#[derive(Clone, Copy, Debug, PartialEq, Eq)]
pub struct Ran {
    pub outcome: Outcome,
    pub rounds: u64,
    pub forks: Forks,
    pub stars: Stars,
}

/// Tries to share inputs where b had two arcs out: accepted, and refused by these numbers.
#[derive(Clone, Copy, Debug, Default, PartialEq, Eq)]
pub struct Forks {
    pub accepted: u64,
    pub nothing_saved: u64,
    pub new_delay: u64,
}

/// The stars made, and the steps of other kinds accepted after the first of them.
#[derive(Clone, Copy, Debug, Default, PartialEq, Eq)]
pub struct Stars {
    pub made: u64,
    pub steps_after: u64,
}

impl Forks {
    #[inline]
    fn count(&mut self, answer: Result<u64, Refusal>) {
        match answer {
            Ok(_) => self.accepted += 1,
            Err(refusal::NOTHING_SAVED) => self.nothing_saved += 1,
            Err(refusal::NEW_DELAY) => self.new_delay += 1,
            Err(_) => {}
        }
    }
}

#[inline]
pub fn run(sizes: Sizes, table: &mut [i32], scratch: usize) -> Result<Ran, Refusal> {
    let (board, _) = Board::open(sizes, table, scratch)?;
    let (mut steps, mut rounds) = (0, 0);
    let (mut forks, mut stars) = (Forks::default(), Stars::default());
    loop {
        let others = round(sizes, table, scratch, &mut forks);
        let made = star(sizes, table, scratch);
        if others + made == 0 {
            break;
        }
        if stars.made > 0 {
            stars.steps_after += others;
        }
        stars.made += made;
        steps += others + made;
        rounds += 1;
    }
    Ok(Ran { outcome: Outcome { steps, arcs: board.arcs(table) }, rounds, forks, stars })
}

/// One round's tries before the star; answers how many weren't refused.
#[inline]
fn round(sizes: Sizes, table: &mut [i32], scratch: usize, forks: &mut Forks) -> u64 {
    let inputs = 0..sizes.inputs;
    let outputs = sizes.inputs..sizes.inputs + sizes.outputs;
    let inner = sizes.inputs + sizes.outputs..sizes.vertices;
    let mut accepted = 0;
    let mut tried = |answer: Result<u64, Refusal>| accepted += u64::from(answer.is_ok());

    for a in inputs.clone() {
        for b in inputs.clone().filter(|&b| b != a) {
            let unused = |&k: &u64| !in_use(sizes, table, k);
            if let Some(k) = inner.clone().find(unused) {
                let forked = is_fork(sizes, table, b);
                let answer = steps::share_inputs(sizes, table, scratch, a, b, k);
                if forked {
                    forks.count(answer);
                }
                tried(answer);
            }
        }
    }
    for a in outputs.clone() {
        for b in outputs.clone().filter(|&b| b != a) {
            tried(steps::share_outputs(sizes, table, scratch, a, b));
        }
    }
    tried(steps::prune(sizes, table, scratch));
    for k in inner {
        tried(steps::shrink(sizes, table, scratch, k));
    }
    for o in outputs {
        tried(steps::merge_back(sizes, table, scratch, o));
    }
    accepted
}

/// A round's last try: the star that is found; answers 1 if one was and wasn't refused.
#[inline]
fn star(sizes: Sizes, table: &mut [i32], scratch: usize) -> u64 {
    let Ok(Some(Found { vertex: a, .. })) = find_star(sizes, table, scratch) else { return 0 };
    let all = 0..sizes.vertices;
    let arc = |u: u64, v: u64| table[(sizes.vertices * u + v) as usize] != Board::ABSENT;
    let targets: Vec<u64> = all.clone().filter(|&t| arc(a, t)).collect();
    let others = all.clone().filter(|&s| s != a && targets.iter().all(|&t| arc(s, t)));
    let sources: Vec<u64> = [a].into_iter().chain(others).collect();
    let mut inner = sizes.inputs + sizes.outputs..sizes.vertices;
    let Some(k) = inner.find(|&k| !in_use(sizes, table, k)) else { return 0 };
    u64::from(steps::star(sizes, table, scratch, &sources, &targets, k).is_ok())
}

/// Whether an arc touches the vertex.
#[inline]
fn in_use(sizes: Sizes, table: &[i32], k: u64) -> bool {
    let arc = |u: u64, v: u64| table[(sizes.vertices * u + v) as usize] != Board::ABSENT;
    (0..sizes.vertices).any(|v| arc(k, v) || arc(v, k))
}

/// Whether two arcs leave the vertex.
#[inline]
fn is_fork(sizes: Sizes, table: &[i32], u: u64) -> bool {
    let arc = |&v: &u64| table[(sizes.vertices * u + v) as usize] != Board::ABSENT;
    (0..sizes.vertices).filter(arc).count() == 2
}
