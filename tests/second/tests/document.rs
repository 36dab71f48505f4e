//! Document 01's boards for checking, one for the run, 003's example for the margins, ticket 2's cells
//! under load, ticket 3's libraries, ticket 5's scratch, ticket 6's shares, and ticket 7's stars, on the
//! second implementation.

use second::board::{Board, Sizes};
use second::delays::{MOST_TIME, NONE};
use second::file::{read, write};
use second::find_star::{find_star, Found};
use second::library::{read_library, BUILT_IN, CODES};
use second::literal::{Forks, Ran, Stars};
use second::margins::{self, Answers};
use second::records::RefusedRead;
use second::{delays, literal, run, steps, thin};
use std::fmt::Debug;
use std::ops::Range;

/// Enough for every board.
const SCRATCH: usize = 4 * 90;

fn sizes(inputs: u64, outputs: u64, vertices: u64) -> Sizes {
    Sizes { inputs, outputs, vertices }
}

/// From, to, delay.
type Arc = (usize, usize, i32);

fn table(vertices: usize, arcs: &[Arc]) -> Vec<i32> {
    let mut table = vec![Board::ABSENT; vertices * vertices];
    for &(u, v, delay) in arcs {
        table[vertices * u + v] = delay;
    }
    table
}

/// Arrivals, required times and margins in lists of the right length, 9 in each cell before the call.
fn margins(
    sizes: Sizes,
    table: &[i32],
    at_inputs: &[i64],
    at_outputs: &[i64],
) -> (Result<(), u64>, [Vec<i64>; 3]) {
    let mut answers = [(); 3].map(|()| vec![9; sizes.vertices as usize]);
    let [arrival, required, margin] = &mut answers;
    let lent = Answers { arrival, required, margin };
    let answer = margins::margins(sizes, table, SCRATCH, at_inputs, at_outputs, lent);
    (answer, answers)
}

fn arc(u: u8, v: u8, delay: i32) -> Vec<u8> {
    [b"AR", &[u, v][..], &delay.to_le_bytes()].concat()
}

fn cell(u: u8, v: u8, code: u8) -> Vec<u8> {
    vec![b'C', b'E', u, v, code]
}

/// A file with a right end.
fn file(inputs: u8, outputs: u8, vertices: u8, records: &[Vec<u8>]) -> Vec<u8> {
    let count = (records.len() as u16).to_le_bytes();
    [b"BD", &[inputs, outputs, vertices][..], &records.concat(), b"EN", &count].concat()
}

/// The table that a file of so many vertices is read to.
fn table_of(file: &[u8], vertices: usize) -> Vec<i32> {
    table_under(&BUILT_IN, file, vertices)
}

fn table_under(library: &[i32], file: &[u8], vertices: usize) -> Vec<i32> {
    let mut cells = vec![9; vertices * vertices];
    let answer = read(file, &mut cells, SCRATCH, library);
    assert_eq!(answer.map(|sizes| sizes.vertices), Ok(vertices as u64));
    cells
}

/// A library with these codes.
fn library(chips: &[(u8, i32)]) -> [i32; CODES] {
    let mut cells = [Board::ABSENT; CODES];
    for &(code, ticks) in chips {
        cells[usize::from(code)] = ticks;
    }
    cells
}

/// `CL` records.
fn chips(chips: &[(u8, i32)]) -> Vec<u8> {
    let record = |&(code, ticks): &(u8, i32)| [b"CL", &[code][..], &ticks.to_le_bytes()].concat();
    chips.iter().flat_map(record).collect()
}

fn p2() -> Vec<i32> {
    table(6, &[(0, 2, 3), (0, 3, 4), (0, 4, 5), (1, 2, 5), (1, 3, 6), (1, 4, 7)])
}

fn p2_shared() -> Vec<i32> {
    table(6, &[(0, 5, 0), (1, 5, 2), (5, 2, 3), (5, 3, 4), (5, 4, 5)])
}

fn p5() -> Vec<i32> {
    table(3, &[(0, 1, 4), (1, 2, 3), (0, 2, 1)])
}

fn p7() -> Vec<i32> {
    table(5, &[(0, 4, 2), (1, 4, 3), (4, 2, 1), (4, 3, 4)])
}

fn p8() -> Vec<i32> {
    table(3, &[(0, 2, 600_000_000), (2, 1, 400_000_000)])
}

#[test]
fn p1_has_nothing_to_prune() {
    let mut cells = table(2, &[]);
    let mut matrix = [9];
    assert_eq!(delays::matrix(sizes(1, 1, 2), &cells, 4 * 2, &mut matrix), Ok(()));
    assert_eq!(matrix, [NONE]);
    assert_eq!(steps::prune(sizes(1, 1, 2), &mut cells, 4 * 2), Err(13));
}

#[test]
fn p2_shares_inputs() {
    let mut cells = p2();
    assert_eq!(steps::share_inputs(sizes(2, 3, 6), &mut cells, 4 * 6, 0, 1, 5), Ok(5));
    assert_eq!(cells, p2_shared());
}

#[test]
fn p3_makes_a_star() {
    let mut cells = p2();
    let answer = steps::star(sizes(2, 3, 6), &mut cells, 4 * 6, &[0, 1], &[2, 3, 4], 5);
    assert_eq!(answer, Ok(5));
    assert_eq!(cells, p2_shared());
}

#[test]
fn p4_neither_shares_nor_makes_a_star() {
    let mut cells = p2();
    cells[6 + 4] = 8;
    assert_eq!(steps::share_inputs(sizes(2, 3, 6), &mut cells, 4 * 6, 0, 1, 5), Err(11));
    let answer = steps::star(sizes(2, 3, 6), &mut cells, 4 * 6, &[0, 1], &[2, 3, 4], 5);
    assert_eq!(answer, Err(13));
}

#[test]
fn p5_and_p6_share_outputs() {
    let mut cells = p5();
    assert_eq!(steps::share_outputs(sizes(1, 2, 3), &mut cells, 4 * 3, 2, 1), Err(12));
    assert_eq!(cells, p5());
    assert_eq!(steps::share_outputs(sizes(1, 2, 3), &mut cells, 4 * 3, 1, 2), Ok(2));
    assert_eq!(cells, table(3, &[(0, 1, 4), (1, 2, 3)]));
}

#[test]
fn p7_merges_back() {
    let mut cells = p7();
    assert_eq!(steps::merge_back(sizes(2, 2, 5), &mut cells, 4 * 5, 2), Ok(3));
    assert_eq!(cells, table(5, &[(0, 2, 3), (1, 2, 4), (2, 3, 3)]));
}

#[test]
fn p8_shrinks_up_to_the_limit() {
    let mut cells = p8();
    assert_eq!(steps::shrink(sizes(1, 1, 3), &mut cells, 4 * 3, 2), Ok(1));
    assert_eq!(cells, table(3, &[(0, 1, 1_000_000_000)]));
    let mut cells = table(3, &[(0, 2, 600_000_000), (2, 1, 400_000_001)]);
    assert_eq!(steps::shrink(sizes(1, 1, 3), &mut cells, 4 * 3, 2), Err(14));
}

#[test]
fn ninety_vertices_are_the_most() {
    let mut cells = table(91, &[]);
    let outcome = run::Outcome { steps: 0, arcs: 0 };
    let ran = Ran { outcome, rounds: 0, forks: Forks::default(), stars: Stars::default() };
    assert_eq!(run::run(sizes(1, 1, 90), &mut cells, SCRATCH), Ok(outcome));
    assert_eq!(run::run(sizes(1, 1, 91), &mut cells, 91 * 91), Err(1));
    assert_eq!(literal::run(sizes(1, 1, 90), &mut cells, SCRATCH), Ok(ran));
    assert_eq!(literal::run(sizes(1, 1, 91), &mut cells, 91 * 91), Err(1));
}

/// Both runs on a table of so many vertices: rounds, steps and what is left.
fn runs(sizes: Sizes, first: &[Arc], rounds: u64, steps: u64, last: &[Arc]) -> Ran {
    let first = table(sizes.vertices as usize, first);
    let outcome = run::Outcome { steps, arcs: last.len() as u64 };
    let last = table(sizes.vertices as usize, last);
    let mut cells = first.clone();
    assert_eq!(run::run(sizes, &mut cells, SCRATCH), Ok(outcome));
    assert_eq!(cells, last);
    let mut cells = first;
    let ran = literal::run(sizes, &mut cells, SCRATCH);
    assert_eq!(ran.map(|ran| (ran.outcome, ran.rounds)), Ok((outcome, rounds)));
    assert_eq!(cells, last);
    ran.unwrap()
}

/// The first round shares 0 and 1 at 8 and shrinks 7, which gives 2 a third arc; the second shares 0 and
/// 2 at 7 and shrinks 7 again, and 9, which only 3 leads to then. Input 3 keeps the outputs apart.
#[test]
fn a_shrink_opens_a_share() {
    let odd = [(3, 5, 2), (3, 9, 3), (9, 4, -2), (9, 6, 1)];
    let shared = [(0, 4, 1), (0, 5, 1), (0, 6, 1), (1, 4, 1), (1, 5, 1), (1, 7, 0)];
    let opened = [(2, 4, 1), (2, 7, 0), (7, 5, 1), (7, 9, 0)];
    let first = [&odd[..], &shared, &opened].concat();
    let hub = [(0, 8, 0), (1, 8, 0), (2, 8, 0), (8, 4, 1), (8, 5, 1), (8, 6, 1)];
    let last = [&hub[..], &[(3, 4, 1), (3, 5, 2), (3, 6, 4)]].concat();
    let ran = runs(sizes(4, 3, 10), &first, 2, 5, &last);
    assert_eq!((ran.forks, ran.stars), (Forks::default(), Stars::default()));
}

/// The first round shares 0 and 1 at 8 and shrinks 7, which gives 2 its arcs to all outputs; the star of 2
/// at 7 covers all arcs of 2 and 8, and one of 3. Then 8, left with one arc out, is shrunk, and 7 is merged
/// back into 4.
#[test]
fn a_shrink_opens_a_star() {
    let odd = [(3, 4, 1), (3, 5, 2), (3, 6, 4)];
    let shared = [(0, 4, 1), (0, 5, 1), (0, 6, 1), (1, 4, 1), (1, 5, 1), (1, 7, 0)];
    let opened = [(2, 4, 1), (2, 7, 0), (7, 5, 1), (7, 6, 1)];
    let first = [&odd[..], &shared, &opened].concat();
    let last = [&[(0, 4, 1), (1, 4, 1), (2, 4, 1), (4, 5, 0), (4, 6, 0)][..], &odd].concat();
    let ran = runs(sizes(4, 3, 9), &first, 2, 5, &last);
    assert_eq!(ran.stars, Stars { made: 1, steps_after: 2 });
}

/// Sharing inputs 0 and 1: the answer, and the table, which a refused call leaves.
fn share(sizes: Sizes, arcs: &[Arc], k: u64) -> (Result<u64, u64>, Vec<i32>) {
    let before = table(sizes.vertices as usize, arcs);
    let mut cells = before.clone();
    let answer = steps::share_inputs(sizes, &mut cells, SCRATCH, 0, 1, k);
    if answer.is_err() {
        assert_eq!(cells, before);
    }
    (answer, cells)
}

/// Each time b is 1 and has two arcs.
#[test]
fn a_share_with_two_arcs_after_which_none_goes_is_refused() {
    // to outputs alone
    let arcs = [(0, 2, 3), (0, 3, 4), (1, 2, 5), (1, 3, 6)];
    assert_eq!(share(sizes(2, 2, 5), &arcs, 4).0, Err(13));
    // 4 hears of 0 too, and then of the new vertex
    let arcs = [(0, 4, 1), (1, 4, 2), (1, 2, 4), (4, 2, 2), (4, 3, 3)];
    assert_eq!(share(sizes(2, 2, 6), &arcs, 5).0, Err(13));
    // 4 hears of output 3 too, which nothing drives and which keeps its arc
    let arcs = [(0, 2, 3), (1, 4, 2), (1, 2, 0), (4, 2, 2), (3, 4, 7)];
    assert_eq!(share(sizes(2, 2, 6), &arcs, 5).0, Err(13));
    // without that arc 4 goes
    let (answer, cells) = share(sizes(2, 2, 6), &arcs[..4], 5);
    assert_eq!(answer, Ok(3));
    assert_eq!(cells, table(6, &[(0, 5, 0), (1, 5, 1), (5, 2, 3)]));
}

/// 1 leads to 4, 4 to 3, 3 to output 2: first 4's arc goes, then 3's.
#[test]
fn arcs_go_in_two_rounds() {
    let arcs = [(0, 2, 7), (1, 2, 0), (1, 4, 1), (4, 3, 2), (3, 2, 6)];
    let (answer, cells) = share(sizes(2, 1, 6), &arcs, 5);
    assert_eq!(answer, Ok(3));
    assert_eq!(cells, table(6, &[(0, 5, 0), (1, 5, 2), (5, 2, 7)]));
    // with one arc out of 1 they would go just so
    let one: Vec<_> = arcs.into_iter().filter(|&arc| arc != (1, 2, 0)).collect();
    assert_eq!(share(sizes(2, 1, 6), &one, 5).0, Err(13));
}

/// Nothing drives inner 5, before the share as little as after it; nor output 4, whose arc stays.
#[test]
fn arcs_go_where_nothing_led_before_the_share() {
    let arcs = [(0, 2, 3), (0, 3, 4), (1, 2, 5), (1, 3, 6), (4, 3, 1), (5, 3, 9)];
    let (answer, cells) = share(sizes(2, 3, 7), &arcs, 6);
    assert_eq!(answer, Ok(5));
    assert_eq!(cells, table(7, &[(0, 6, 0), (1, 6, 2), (6, 2, 3), (6, 3, 4), (4, 3, 1)]));
    assert_eq!(share(sizes(2, 3, 7), &arcs[..5], 6).0, Err(13));
}

/// Inner 5 heard of 1 alone.
#[test]
fn a_share_with_three_arcs_deletes_nothing() {
    let arcs = [(0, 2, 3), (0, 3, 4), (0, 4, 5), (1, 2, 5), (1, 3, 6), (1, 5, 1), (5, 4, 6)];
    let (answer, cells) = share(sizes(2, 3, 7), &arcs, 6);
    assert_eq!(answer, Ok(6));
    let shared = [(0, 6, 0), (1, 6, 2), (6, 2, 3), (6, 3, 4), (6, 4, 5), (5, 4, 6)];
    assert_eq!(cells, table(7, &shared));
}

/// 1 is later than 0 by so much; with inner 4, which nothing drives, an arc goes.
#[test]
fn a_share_with_two_arcs_saves_before_its_difference_is_checked() {
    let arcs = |half: i32| [(0, 2, -half), (0, 3, -half), (1, 2, half), (1, 3, half), (4, 3, 0)];
    let (refused, limit) = (arcs(500_000_001), arcs(500_000_000));
    assert_eq!(share(sizes(2, 2, 6), &refused[..4], 5).0, Err(13));
    assert_eq!(share(sizes(2, 2, 6), &refused, 5).0, Err(14));
    assert_eq!(share(sizes(2, 2, 6), &limit[..4], 5).0, Err(13));
    let (answer, cells) = share(sizes(2, 2, 6), &limit, 5);
    assert_eq!(answer, Ok(4));
    let shared = [(0, 5, 0), (1, 5, 1_000_000_000), (5, 2, -500_000_000), (5, 3, -500_000_000)];
    assert_eq!(cells, table(6, &shared));
    // 11 before both
    let mut odd = refused;
    odd[3].2 += 1;
    assert_eq!(share(sizes(2, 2, 6), &odd, 5).0, Err(11));
    assert_eq!(share(sizes(2, 2, 6), &odd[..4], 5).0, Err(11));
}

/// 0 and 1 have two arcs each, one of them to an inner vertex of their own; 1's goes when they are shared
/// at 7, and 0's is shrunk. Input 2 keeps the outputs apart.
#[test]
fn a_run_shares_where_two_arcs_leave_b() {
    let odd = [(2, 3, 1), (2, 4, 2), (2, 5, 4)];
    let forks =
        [(0, 3, 1), (0, 8, 0), (8, 4, 1), (8, 5, 1), (1, 3, 1), (1, 6, 0), (6, 4, 1), (6, 5, 1)];
    let first = [&odd[..], &forks].concat();
    let hub = [(0, 7, 0), (1, 7, 0), (7, 3, 1), (7, 4, 1), (7, 5, 1)];
    let ran = runs(sizes(3, 3, 9), &first, 1, 2, &[&odd[..], &hub].concat());
    assert_eq!(ran.forks, Forks { accepted: 1, ..Forks::default() });
    assert_eq!(ran.stars, Stars::default());
}

/// What is found on a table, which stays as it is.
fn found(sizes: Sizes, arcs: &[Arc]) -> Option<(u64, u64)> {
    let found = find_star(sizes, &table(sizes.vertices as usize, arcs), SCRATCH);
    found.unwrap().map(|Found { vertex, saving }| (vertex, saving))
}

/// Arcs from each of some vertices to each of some others.
fn block(sources: &[usize], targets: Range<usize>, delay: i32) -> Vec<Arc> {
    sources.iter().flat_map(|&s| targets.clone().map(move |t| (s, t, delay))).collect()
}

#[test]
fn the_least_vertex_of_the_largest_saving_is_found() {
    // the stars of 0 and 1 both cover 6 arcs with 5
    assert_eq!(found(sizes(2, 3, 6), &block(&[0, 1], 2..5, 1)), Some((0, 1)));
    // those of 2 and 3 cover 8 with 6
    let two = [block(&[0, 1], 4..7, 1), block(&[2, 3], 7..11, 1)].concat();
    assert_eq!(found(sizes(4, 7, 12), &two), Some((2, 2)));
    // 0 has an arc that 1 lacks, so that the star of 1 alone is of both
    let more = [block(&[0, 1], 2..5, 1), block(&[0], 5..6, 1)].concat();
    assert_eq!(found(sizes(2, 4, 7), &more), Some((1, 1)));
    // all are outputs
    let arcs = [(4, 1, 5), (4, 2, 7), (4, 3, 6), (5, 1, 6), (5, 2, 8), (5, 3, 7)];
    assert_eq!(found(sizes(1, 5, 7), &arcs), Some((4, 1)));
}

#[test]
fn none_is_found_without_a_free_number_or_a_saving() {
    assert_eq!(found(sizes(2, 3, 5), &block(&[0, 1], 2..5, 1)), None);
    // 5 is in use
    let arcs = [block(&[0, 1], 2..5, 1), vec![(5, 2, 0)]].concat();
    assert_eq!(found(sizes(2, 3, 6), &arcs), None);
    assert_eq!(found(sizes(2, 3, 7), &arcs), Some((0, 1)));
    // 4 arcs covered with 4, 4 with 5, and, one longer, 5 with 5
    assert_eq!(found(sizes(2, 2, 5), &block(&[0, 1], 2..4, 1)), None);
    assert_eq!(found(sizes(1, 4, 6), &block(&[0], 1..5, 1)), None);
    let mut longer = block(&[0, 1], 2..5, 1);
    longer[5].2 = 2;
    assert_eq!(found(sizes(2, 3, 6), &longer), None);
    assert_eq!(found(sizes(1, 1, 3), &[]), None);
}

#[test]
fn a_star_that_is_refused_by_14_is_not_found() {
    let apart = |time: i32| [block(&[0], 2..5, -500_000_000), block(&[1], 2..5, time)].concat();
    assert_eq!(found(sizes(2, 3, 6), &apart(500_000_000)), Some((0, 1)));
    assert_eq!(found(sizes(2, 3, 6), &apart(500_000_001)), None);
    // those of 0 and 1 would cover 12 with 8; that of 2, between them, covers 9 with 6
    let ends = [block(&[0], 3..9, -600_000_000), block(&[1], 3..9, 600_000_000)].concat();
    assert_eq!(found(sizes(3, 6, 10), &ends), None);
    let between = [ends, block(&[2], 3..6, 0)].concat();
    assert_eq!(found(sizes(3, 6, 10), &between), Some((2, 3)));
}

#[test]
fn a_search_for_a_star_is_refused_for_its_board_alone() {
    let cells = table(6, &block(&[0, 1], 2..5, 1));
    let refused = |sizes, cells: &[i32], scratch| find_star(sizes, cells, scratch).err();
    assert_eq!(refused(sizes(2, 3, 91), &cells, SCRATCH), Some(1));
    assert_eq!(refused(sizes(2, 3, 6), &cells[..35], SCRATCH), Some(2));
    assert_eq!(refused(sizes(2, 3, 6), &cells, 23), Some(3));
    assert_eq!(refused(sizes(2, 3, 6), &cells, 24), None);
    for (u, v, delay, number) in [(4, 2, 1_000_000_001, 4), (4, 1, 0, 5), (5, 5, 0, 6)] {
        let mut cells = cells.clone();
        cells[6 * u + v] = delay;
        assert_eq!(refused(sizes(2, 3, 6), &cells, SCRATCH), Some(number));
    }
}

/// No vertex has arcs to 6, 7 and 8 alone.
#[test]
fn a_run_leaves_a_star_over_some_of_each_vertex_s_targets() {
    let hearing = [(0, 9, 1), (1, 10, 1), (2, 11, 1), (3, 6, 1), (4, 7, 1), (5, 8, 1)];
    let arcs = [&block(&[0, 1, 2], 6..9, 1)[..], &hearing].concat();
    assert_eq!(found(sizes(6, 6, 13), &arcs), None);
    let ran = runs(sizes(6, 6, 13), &arcs, 0, 0, &arcs);
    assert_eq!(ran.stars, Stars::default());

    let mut cells = table(13, &arcs);
    let answer = steps::star(sizes(6, 6, 13), &mut cells, SCRATCH, &[0, 1, 2], &[6, 7, 8], 12);
    assert_eq!(answer, Ok(12));
    let hub = [block(&[0, 1, 2], 12..13, 0), block(&[12], 6..9, 1)].concat();
    assert_eq!(cells, table(13, &[&hub[..], &hearing].concat()));
}

/// The star of 1 covers its three arcs and two of each other's; 7 is then merged back into 6.
#[test]
fn a_run_makes_a_star() {
    let rows = [(0, [4, 2, 3]), (1, [2, 2, 3]), (2, [3, 6, 4]), (3, [0, 1, 1])];
    let arcs = rows.map(|(u, row)| [(u, 4, row[0]), (u, 5, row[1]), (u, 6, row[2])]).concat();
    assert_eq!(found(sizes(4, 3, 8), &arcs), Some((1, 2)));
    let last = [
        (0, 4, 4),
        (0, 6, 3),
        (1, 6, 3),
        (2, 5, 6),
        (2, 6, 4),
        (3, 5, 1),
        (3, 6, 1),
        (6, 4, -1),
        (6, 5, -1),
    ];
    let ran = runs(sizes(4, 3, 8), &arcs, 2, 2, &last);
    assert_eq!(ran.stars, Stars { made: 1, steps_after: 1 });
}

/// 003's network: inputs a to h are 0 to 7, g12 is 8, g1 to g11 are 9 to 19.
fn lecture() -> Vec<i32> {
    let (a, b, c, d, e, f, g, h) = (0, 1, 2, 3, 4, 5, 6, 7);
    let (g12, g1, g2, g3, g4, g5) = (8, 9, 10, 11, 12, 13);
    let (g6, g7, g8, g9, g10, g11) = (14, 15, 16, 17, 18, 19);
    let nands = [
        (g1, [a, b]),
        (g3, [g1, g2]),
        (g5, [g3, g4]),
        (g7, [e, f]),
        (g9, [g8, g]),
        (g10, [g6, g9]),
        (g12, [g11, h]),
    ];
    let inverters = [(g2, c), (g4, d), (g6, g5), (g8, g7), (g11, g10)];
    let into_nands = nands.into_iter().flat_map(|(to, from)| from.map(|from| (from, to, 2)));
    let into_inverters = inverters.into_iter().map(|(to, from)| (from, to, 1));
    table(20, &into_nands.chain(into_inverters).collect::<Vec<_>>())
}

#[test]
fn the_lecture_has_a_least_margin_of_minus_two() {
    let (answer, [arrival, required, margin]) =
        margins(sizes(8, 1, 20), &lecture(), &[0; 8], &[10]);
    assert_eq!(answer, Ok(()));
    // a to h, g12, g1 to g11
    assert_eq!(arrival, [0, 0, 0, 0, 0, 0, 0, 0, 12, 2, 1, 4, 1, 6, 7, 2, 3, 5, 9, 10]);
    assert_eq!(required, [-2, -2, -1, 1, 0, 0, 3, 8, 10, 0, 0, 2, 2, 4, 5, 2, 3, 5, 7, 8]);
    assert_eq!(margin, [-2, -2, -1, 1, 0, 0, 3, 8, -2, -2, -1, -2, 1, -2, -2, 0, 0, 0, -2, -2]);
    assert_eq!(margins::least(&margin), Some(-2));
}

#[test]
fn an_output_with_arcs_out_takes_the_smaller_time() {
    // 0 →4 1 →3 2
    let cells = p5();
    let required = |own, next| margins(sizes(1, 2, 3), &cells, &[0], &[own, next]).1[1].clone();
    assert_eq!(required(20, 10), [3, 7, 10]);
    assert_eq!(required(5, 10), [1, 5, 10]);
    assert_eq!(required(NONE, 10), [3, 7, 10]);
    assert_eq!(required(5, NONE), [1, 5, NONE]);
    assert_eq!(required(NONE, NONE), [NONE; 3]);
}

/// Input 1 has no arrival, input 2 reaches nothing, inner 5 is undriven, output 4 has no time of its own.
#[test]
fn a_margin_needs_both_its_parts() {
    let cells = table(6, &[(0, 3, -2), (1, 3, 50), (0, 4, 1), (5, 3, 3)]);
    let (answer, [arrival, required, margin]) =
        margins(sizes(3, 2, 6), &cells, &[7, NONE, 0], &[10, NONE]);
    assert_eq!(answer, Ok(()));
    assert_eq!(arrival, [7, NONE, 0, 5, 8, NONE]);
    assert_eq!(required, [12, -40, NONE, 10, NONE, 7]);
    assert_eq!(margin, [5, NONE, NONE, 5, NONE, NONE]);
    assert_eq!(margins::least(&margin), Some(5));
    assert_eq!(margins::least(&[NONE; 6]), None);
}

#[test]
fn margins_are_refused_for_lists_of_another_length_or_times_out_of_range() {
    let cells = p5();
    let refused = |at_inputs: &[i64], at_outputs: &[i64]| {
        let (answer, answers) = margins(sizes(1, 2, 3), &cells, at_inputs, at_outputs);
        assert_eq!(answers, [[9; 3]; 3]);
        assert_eq!(answer, Err(22));
    };
    refused(&[], &[0, 0]);
    refused(&[0, 0], &[0, 0]);
    refused(&[0], &[0]);
    refused(&[0], &[0, 0, 0]);
    refused(&[MOST_TIME + 1], &[0, 0]);
    refused(&[NONE + 1], &[0, 0]);
    refused(&[0], &[0, -MOST_TIME - 1]);
    refused(&[0], &[i64::MAX, 0]);
    assert_eq!(margins(sizes(1, 2, 3), &cells, &[MOST_TIME], &[-MOST_TIME, NONE]).0, Ok(()));

    for lengths in [[2, 3, 3], [3, 4, 3], [3, 3, 0]] {
        let mut answers = lengths.map(|length| vec![9; length]);
        let [arrival, required, margin] = &mut answers;
        let lent = Answers { arrival, required, margin };
        let answer = margins::margins(sizes(1, 2, 3), &cells, SCRATCH, &[0], &[0, 0], lent);
        assert_eq!(answer, Err(22));
        assert!(answers.iter().flatten().all(|&cell| cell == 9));
    }
    // the table comes first
    let looped = table(3, &[(2, 2, 0)]);
    assert_eq!(margins(sizes(1, 2, 3), &looped, &[], &[]).0, Err(6));
}

#[test]
fn an_empty_file_ends_before_its_first_record() {
    let mut cells = [5; 4];
    assert_eq!(read(&[], &mut cells, 4, &BUILT_IN), Err(RefusedRead { number: 15, offset: 0 }));
    assert_eq!(cells, [5; 4]);
}

/// Of a cell whose target has so many arcs to outputs.
fn delay_under_load(code: u8, load: u8) -> i32 {
    let arcs = (1..=load).map(|output| arc(7, output, 0));
    let records: Vec<_> = [cell(0, 7, code)].into_iter().chain(arcs).collect();
    table_of(&file(1, 6, 8, &records), 8)[7]
}

#[test]
fn each_record_leaving_its_target_slows_a_cell_by_a_fifth() {
    let inv = |load| delay_under_load(0, load);
    assert_eq!([0, 1, 2, 5, 6].map(inv), [1, 2, 2, 2, 3]);
    // NAND2, AND, OR, MUX
    for code in 1..=4 {
        let slower = |load| delay_under_load(code, load);
        assert_eq!([0, 1, 2, 3, 4, 5, 6].map(slower), [2, 3, 3, 4, 4, 4, 5]);
    }
}

/// On the fullest board vertex v leads to all higher ones.
#[test]
fn every_load_up_to_88_is_rounded_up() {
    for (code, ticks) in [(0, 1), (1, 2), (2, 2), (3, 2), (4, 2)] {
        let arcs_out = |u| (u + 1..90).map(move |v| cell(u, v, code));
        let records: Vec<_> = (0..90).flat_map(arcs_out).collect();
        let cells = table_of(&file(1, 1, 90, &records), 90);
        for (u, v) in (0..90).flat_map(|u| (u + 1..90).map(move |v| (u, v))) {
            let (delay, load) = (cells[90 * u + v], 89 - v as i32);
            let fifths = ticks * (5 + load);
            assert!(5 * (delay - 1) < fifths && fifths <= 5 * delay, "{delay} under load {load}");
        }
    }
}

/// 0→3 stands before the three records out of 3, 4→3 after them; 1→3 is an arc and keeps its delay.
#[test]
fn cells_and_arcs_count_before_and_after_a_cell() {
    let records =
        [cell(0, 3, 1), arc(1, 3, 2), arc(3, 2, -7), cell(3, 5, 4), arc(3, 6, 1), cell(4, 3, 1)];
    let expected = table(7, &[(0, 3, 4), (1, 3, 2), (3, 2, -7), (3, 5, 2), (3, 6, 1), (4, 3, 4)]);
    assert_eq!(table_of(&file(2, 1, 7, &records), 7), expected);
}

#[test]
fn a_refused_cell_keeps_its_number_and_offset() {
    let refused = |file: &[u8], number, offset| {
        let mut cells = [5; 17];
        assert_eq!(read(file, &mut cells, 16, &BUILT_IN), Err(RefusedRead { number, offset }));
        assert_eq!(cells[..16], [Board::ABSENT; 16]);
        assert_eq!(cells[16], 5);
    };
    let (into, out) = (cell(0, 3, 1), [arc(3, 1, 7), cell(3, 2, 0)].concat());
    let one = |odd: Vec<u8>| file(1, 2, 4, &[into.clone(), odd, out.clone()]);
    refused(&one(cell(1, 3, 5)), 17, 10);
    refused(&one(cell(1, 3, 255)), 17, 10);
    refused(&one(cell(1, 4, 0)), 17, 10);
    refused(&one(cell(4, 3, 0)), 17, 10);
    refused(&one(cell(255, 255, 0)), 17, 10);
    refused(&one(into.clone()), 18, 10);
    refused(&one(cell(0, 2, 0)), 18, 10);
    // after the cells
    refused(&[&b"BD\x01\x02\x04"[..], &into, &out, b"EN\x02\x00"].concat(), 19, 23);
    refused(&[&b"BD\x01\x02\x04"[..], &into, &out, b"EN\x03\x00x"].concat(), 20, 27);
    refused(&[&b"BD\x01\x02\x04"[..], &into, &out, b"CE\x03\x03"].concat(), 15, 23);
    refused(&file(1, 2, 4, &[into.clone(), cell(3, 0, 0)]), 5, 0);
    refused(&file(1, 2, 4, &[into, cell(3, 3, 0)]), 6, 0);
}

/// A row of ninety records, the loop and the arc into the input among them, in which a cell has load 90.
#[test]
fn a_full_row_of_cells_is_refused() {
    let full: Vec<_> = (0..90).map(|v| cell(89, v, 4)).collect();
    for (records, number) in [(&full[..], 5), (&full[1..], 6)] {
        let mut cells = vec![5; 90 * 90];
        let refused = RefusedRead { number, offset: 0 };
        assert_eq!(read(&file(1, 1, 90, records), &mut cells, SCRATCH, &BUILT_IN), Err(refused));
        assert!(cells.iter().all(|&cell| cell == Board::ABSENT));
    }
}

#[test]
fn a_library_takes_the_place_of_the_built_in_cells() {
    let own = [(0, 3), (7, 0), (31, 1_000_000)];
    let mut cells = BUILT_IN;
    assert_eq!(read_library(&[&chips(&own)[..], b"EN\x03\x00"].concat(), &mut cells), Ok(()));
    assert_eq!(cells, library(&own));

    // 31 drives 88 arcs, 0 one, 7 none
    let arcs = (2..90).map(|v| arc(1, v, 0));
    let records = [cell(0, 1, 31)].into_iter().chain(arcs).chain([cell(2, 3, 0), cell(3, 4, 7)]);
    let table = table_under(&cells, &file(1, 1, 90, &records.collect::<Vec<_>>()), 90);
    assert_eq!([table[1], table[2 * 90 + 3], table[3 * 90 + 4]], [18_600_000, 4, 0]);

    // it may be empty
    assert_eq!(read_library(b"EN\x00\x00", &mut cells), Ok(()));
    assert_eq!(cells, library(&[]));
}

#[test]
fn a_refused_library_leaves_the_old_one() {
    let refused = |file: &[&[u8]], number, offset| {
        // what the cells held is not tested
        let mut cells = [-5; CODES];
        let answer = read_library(&file.concat(), &mut cells);
        assert_eq!(answer, Err(RefusedRead { number, offset }));
        assert_eq!(cells, [-5; CODES]);
    };
    let first = chips(&[(3, 9)]);
    let second = |chip| [&first[..], &chips(&[chip]), b"EN\x02\x00"].concat();
    refused(&[], 15, 0);
    refused(&[&first], 15, 7);
    refused(&[&first, b"E"], 15, 7);
    refused(&[&first, b"EN\x01"], 15, 7);
    refused(&[&first, b"CL\xff\x00\x00\x00"], 15, 7);
    refused(&[b"BD\x01\x01\x02EN\x00\x00"], 16, 0);
    refused(&[&first, b"CE"], 16, 7);
    refused(&[&second((32, 0))], 17, 7);
    refused(&[&second((255, -1))], 17, 7);
    refused(&[&second((4, -1))], 23, 7);
    refused(&[&second((4, Board::ABSENT))], 23, 7);
    refused(&[&second((2, 1_000_001))], 23, 7);
    refused(&[&second((3, 9))], 18, 7);
    refused(&[&second((2, 1_000_000))], 18, 7);
    refused(&[&first, b"EN\x00\x00E"], 19, 7);
    refused(&[&first, b"EN\x01\x01"], 19, 7);
    refused(&[&first, b"EN\x01\x00E"], 20, 11);

    for length in [0, 31, 33, 64] {
        let mut cells = vec![5; length];
        let refused = RefusedRead { number: 23, offset: 0 };
        assert_eq!(read_library(&[], &mut cells), Err(refused));
        assert_eq!(cells, vec![5; length]);
    }
}

#[test]
fn a_board_is_refused_under_an_odd_library() {
    let odd = [-1, 1_000_001, i32::MIN + 1].map(|ticks| library(&[(31, ticks)]).to_vec());
    let lengths = [0, 31, 33, 64].map(|length| vec![1; length]);
    let sound = file(1, 1, 2, &[arc(0, 1, 1)]);
    for library in odd.iter().chain(&lengths) {
        for bytes in [b"", &b"EN"[..], b"BD\x00\x01\x02", b"BD\x01\x01\x5a", &sound] {
            let mut cells = [5; 4];
            let refused = RefusedRead { number: 23, offset: 0 };
            assert_eq!(read(bytes, &mut cells, 3, library), Err(refused));
            assert_eq!(cells, [5; 4]);
        }
    }
}

#[test]
fn a_code_that_the_library_lacks_is_refused() {
    let own = library(&[(7, 10)]);
    assert_eq!(table_under(&own, &file(1, 1, 2, &[cell(0, 1, 7)]), 2)[1], 10);
    for code in [0, 4, 6, 31, 32, 255] {
        let mut cells = [5; 4];
        let refused = RefusedRead { number: 17, offset: 5 };
        assert_eq!(read(&file(1, 1, 2, &[cell(0, 1, code)]), &mut cells, 8, &own), Err(refused));
        assert_eq!(cells, [Board::ABSENT; 4]);
    }
}

/// What a call answered and left: the table, and the cells that it answers in.
#[derive(Debug, PartialEq)]
struct Performed {
    answer: Result<String, u64>,
    table: Vec<i32>,
    answers: Vec<i64>,
}

/// A call on a table and on so many cells to answer in; a refused one touches neither.
fn perform<T: Debug>(
    table: &[i32],
    length: usize,
    call: impl FnOnce(&mut [i32], &mut [i64]) -> Result<T, u64>,
) -> Performed {
    let before = (table.to_vec(), vec![9; length]);
    let (mut table, mut answers) = before.clone();
    let answer = call(&mut table, &mut answers).map(|accepted| format!("{accepted:?}"));
    if answer.is_err() {
        assert_eq!((&table, &answers), (&before.0, &before.1));
    }
    Performed { answer, table, answers }
}

fn on_table<T: Debug>(table: &[i32], call: impl FnOnce(&mut [i32]) -> Result<T, u64>) -> Performed {
    perform(table, 0, |table, _| call(table))
}

/// A call of each kind on a table, with so many cells of scratch.
fn calls(sizes: Sizes, table: &[i32], scratch: usize) -> [Performed; 14] {
    let [inputs, outputs, vertices] =
        [sizes.inputs, sizes.outputs, sizes.vertices].map(|size| size as usize);
    let (first, last) = (sizes.inputs, sizes.vertices - 1);
    let (at_inputs, at_outputs) = (vec![1; inputs], vec![30; outputs]);
    let present = table.iter().enumerate().filter(|(_, &delay)| delay != Board::ABSENT);
    let ends = |place| [place / vertices, place % vertices].map(|v| v as u8);
    let records = present.map(|(place, &delay)| (ends(place), delay));
    let records: Vec<_> = records.map(|([u, v], delay)| arc(u, v, delay)).collect();
    let file = file(inputs as u8, outputs as u8, vertices as u8, &records);
    [
        on_table(table, |cells| steps::shrink(sizes, cells, scratch, last)),
        on_table(table, |cells| steps::share_inputs(sizes, cells, scratch, 0, 1, last)),
        on_table(table, |cells| steps::share_outputs(sizes, cells, scratch, first, first + 1)),
        on_table(table, |cells| steps::prune(sizes, cells, scratch)),
        on_table(table, |cells| steps::merge_back(sizes, cells, scratch, first)),
        on_table(table, |cells| steps::star(sizes, cells, scratch, &[0, 1], &[2, 3, 4], last)),
        on_table(table, |cells| run::run(sizes, cells, scratch)),
        on_table(table, |cells| literal::run(sizes, cells, scratch)),
        perform(table, inputs * outputs, |cells, answers| {
            delays::matrix(sizes, cells, scratch, answers)
        }),
        perform(table, outputs, |cells, answers| {
            delays::arrivals(sizes, cells, scratch, &at_inputs, answers)
        }),
        perform(table, 3 * vertices, |cells, answers| {
            let (arrival, answers) = answers.split_at_mut(vertices);
            let (required, margin) = answers.split_at_mut(vertices);
            let lent = Answers { arrival, required, margin };
            margins::margins(sizes, cells, scratch, &at_inputs, &at_outputs, lent)
        }),
        perform(table, 200, |cells, answers| {
            let mut bytes = [9; 200];
            let answer = write(sizes, cells, scratch, &mut bytes);
            answers.copy_from_slice(&bytes.map(i64::from));
            answer
        }),
        on_table(&vec![5; vertices * vertices], |cells| {
            read(&file, cells, scratch, &BUILT_IN).map_err(|refused| refused.number)
        }),
        on_table(table, |cells| find_star(sizes, cells, scratch)),
    ]
}

/// The calls on boards of 2 to 20 vertices, each with its cells of scratch by its vertices.
fn calls_on_all(scratch: impl Fn(usize) -> usize) -> Vec<[Performed; 14]> {
    let boards = [
        (sizes(1, 1, 2), table(2, &[])),
        (sizes(1, 2, 3), p5()),
        (sizes(1, 1, 3), p8()),
        (sizes(2, 2, 5), p7()),
        (sizes(2, 3, 6), p2()),
        (sizes(8, 1, 20), lecture()),
    ];
    let lent = |sizes: Sizes| scratch(sizes.vertices as usize);
    boards.into_iter().map(|(sizes, table)| calls(sizes, &table, lent(sizes))).collect()
}

#[test]
fn four_cells_of_scratch_for_each_vertex_are_enough() {
    let least = calls_on_all(|vertices| 4 * vertices);
    assert!(least.iter().flatten().all(|call| call.answer != Err(3)));
    for kind in 0..14 {
        assert!(least.iter().any(|board| board[kind].answer.is_ok()), "{kind} is refused");
    }
    // all but the steps are accepted on P1 too
    assert!(least[0][6..].iter().all(|call| call.answer.is_ok()));

    assert_eq!(calls_on_all(|vertices| 4 * vertices + 1), least);
    assert_eq!(calls_on_all(|vertices| (vertices * vertices).max(4 * vertices)), least);
    assert_eq!(calls_on_all(|vertices| vertices * vertices + 4 * vertices), least);
    assert_eq!(calls_on_all(|_| 8_100), least);
}

#[test]
fn fewer_cells_of_scratch_are_refused() {
    let refused = |scratch: fn(usize) -> usize| {
        let calls = calls_on_all(scratch);
        assert!(calls.iter().flatten().all(|call| call.answer == Err(3)));
    };
    refused(|_| 0);
    refused(|vertices| 4 * vertices - 1);
    // on boards of 2 and 3 vertices all that the table has
    refused(|vertices| (vertices * vertices).min(4 * vertices - 1));
}

#[test]
fn thin_prints_the_example() {
    let arcs = [(0, 3, 2), (1, 3, 1), (3, 2, 1), (3, 4, 1), (4, 2, 2)];
    let file = file(2, 1, 5, &arcs.map(|(u, v, delay)| arc(u, v, delay)));
    assert_eq!(thin::thin(&file), "board 2 1 5\narc 0 2 5\narc 1 2 4\naccepted 3 arcs 2\n");
}

/// NAND2 drives MUX: 3 and 2.
#[test]
fn thin_adds_delays_under_load() {
    let file = file(1, 1, 3, &[cell(0, 2, 1), cell(2, 1, 4)]);
    assert_eq!(thin::thin(&file), "board 1 1 3\narc 0 1 5\naccepted 1 arcs 1\n");
}
