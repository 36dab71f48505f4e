//! Which case of ticket 7 a call that finds a star was, and whether it answered by the definition: each
//! vertex's star is called on a copy.

use second::board::{Board, Sizes};
use second::find_star::Found;
use second::{refusal, steps};

pub const FOUND: [&str; 7] = [
    "found",
    "where another comes first",
    "where another saves as much",
    "where one refused by 14 saves more",
    "with a source before the vertex",
    "with sources or targets below 64 and above",
    "with a saving above 255",
];

pub const NONE: [&str; 4] =
    ["none", "where one is refused by 14", "without a free number", "where one lacks a number"];

/// Which of the cases an answer was.
pub struct Cases {
    pub found: [bool; FOUND.len()],
    pub none: [bool; NONE.len()],
}

/// The star of a vertex, whether it would be accepted or not.
struct Star {
    vertex: u64,
    sources: Vec<u64>,
    targets: Vec<u64>,
    /// The arcs covered less those laid.
    saving: i64,
}

/// The cases that the answer was, or what is wrong with it; the table passes the checks.
pub fn cases(sizes: Sizes, table: &[i32], answer: Option<Found>) -> Result<Cases, String> {
    let board = Board::new(sizes).map_err(|number| format!("not refused by {number}"))?;
    let stars = (0..board.vertices).map(|a| star(&board, table, a));
    let stars: Vec<Star> = stars.filter(|star| !star.targets.is_empty()).collect();
    let new = (0..board.vertices).find(|&v| board.new_number(table, v).is_ok());
    let (mut accepted, mut too_far) = (Vec::new(), Vec::new());
    for star in stars.iter().filter(|_| new.is_some()) {
        let mut copy = table.to_vec();
        let (scratch, k) = (board.scratch_cells(), new.unwrap_or(0) as u64);
        match steps::star(sizes, &mut copy, scratch, &star.sources, &star.targets, k) {
            Ok(left) if board.arcs(table) as i64 - left as i64 != star.saving => {
                return Err(format!("{left} arcs left by the star of {}", star.vertex));
            }
            Ok(_) => accepted.push(star),
            Err(refusal::NEW_DELAY) => too_far.push(star),
            Err(_) => {}
        }
    }

    let Some(Found { vertex, saving }) = answer else {
        if let Some(star) = accepted.first() {
            return Err(format!("no star found, but {} has one", star.vertex));
        }
        let saves = stars.iter().any(|star| star.saving > 0);
        let none = [true, !too_far.is_empty(), new.is_none(), new.is_none() && saves];
        return Ok(Cases { found: [false; FOUND.len()], none });
    };
    let saving = saving as i64;
    let is_own = |star: &&&Star| star.vertex == vertex && star.saving == saving;
    let Some(own) = accepted.iter().find(is_own) else {
        return Err(format!("{vertex} has no star that saves {saving}"));
    };
    let others = || accepted.iter().filter(|star| star.vertex != vertex);
    let wins = |star: &&&Star| (-star.saving, star.vertex) < (-saving, vertex);
    if let Some(star) = others().find(wins) {
        return Err(format!("the star of {vertex} found, not that of {}", star.vertex));
    }
    let found = [
        true,
        others().any(|star| star.vertex < vertex),
        others().any(|star| star.saving == saving),
        too_far.iter().any(|star| star.saving > saving),
        own.sources.iter().any(|&s| s < vertex),
        is_split(&own.sources) || is_split(&own.targets),
        saving > 255,
    ];
    Ok(Cases { found, none: [false; NONE.len()] })
}

/// As a set of bits the list takes two words.
fn is_split(list: &[u64]) -> bool {
    list.iter().any(|&v| v < 64) && list.iter().any(|&v| v >= 64)
}

fn star(board: &Board, table: &[i32], a: usize) -> Star {
    let delay = |u: usize, v: usize| {
        let cell = table[board.vertices * u + v];
        (cell != Board::ABSENT).then_some(i64::from(cell))
    };
    let all = 0..board.vertices;
    let targets: Vec<usize> = all.clone().filter(|&t| delay(a, t).is_some()).collect();
    let mut sources = vec![a];
    sources.extend(all.filter(|&s| s != a && targets.iter().all(|&t| delay(s, t).is_some())));
    let mut saving = -((sources.len() + targets.len()) as i64);
    // of the arcs of a source those are covered that are least over a's
    for &s in &sources {
        let over_a = |&t: &usize| Some(delay(s, t)? - delay(a, t)?);
        let mut over_a: Vec<i64> = targets.iter().filter_map(over_a).collect();
        over_a.sort();
        saving += over_a.iter().filter(|&&over| over == over_a[0]).count() as i64;
    }
    let named = |list: Vec<usize>| list.into_iter().map(|v| v as u64).collect();
    Star { vertex: a as u64, sources: named(sources), targets: named(targets), saving }
}
