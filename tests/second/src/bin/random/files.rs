//! Random board files: well formed, and damaged.

use crate::boards;
use crate::rng::Rng;
use second::board::Board;

/// The bytes of a file whose cells have the given codes; `like` gives the sizes to use, else they are
/// random.
pub fn file(rng: &mut Rng, like: Option<Board>, codes: &[u8]) -> Vec<u8> {
    let (board, table) = match like {
        Some(board) => (board, boards::table(rng, board).0),
        None => {
            let (board, table, _) = boards::board(rng);
            (board, table)
        }
    };
    let cells = rng.pick(&[0, 0, 30, 70, 100]);
    let records = records(rng, board, &table, cells, codes);
    at_times_damaged(rng, board, records, codes)
}

/// The bytes of a file with many cells, most of them under load, on a board of up to `most` vertices.
pub fn loaded(rng: &mut Rng, most: usize, codes: &[u8]) -> Vec<u8> {
    let (board, mut table) = boards::dense(rng, most);
    if rng.chance(30) {
        fill_row(rng, board, &mut table);
    }
    let cells = rng.pick(&[50, 95, 100, 100]);
    let records = records(rng, board, &table, cells, codes);
    if rng.chance(30) {
        at_times_damaged(rng, board, records, codes)
    } else {
        records.concat()
    }
}

/// Arcs from one vertex to all, itself and the inputs included, or to all but one.
fn fill_row(rng: &mut Rng, board: Board, table: &mut [i32]) {
    let (u, other) = (rng.below(board.vertices), rng.below(board.vertices));
    let row = board.row_mut(table, u);
    row.fill(1);
    if rng.chance(70) {
        row[rng.pick(&[0, 0, u, other])] = Board::ABSENT;
    }
}

/// The records of a table, so many in a hundred of its arcs as cells, of whatever delay.
fn records(rng: &mut Rng, board: Board, table: &[i32], cells: usize, codes: &[u8]) -> Vec<Vec<u8>> {
    let mut records =
        vec![vec![b'B', b'D', board.inputs as u8, board.outputs as u8, board.vertices as u8]];
    for u in 0..board.vertices {
        for (v, delay) in board.arcs_out(table, u) {
            if rng.chance(cells) {
                records.push(vec![b'C', b'E', u as u8, v as u8, rng.pick(codes)]);
            } else {
                let mut record = vec![b'A', b'R', u as u8, v as u8];
                record.extend(delay.to_le_bytes());
                records.push(record);
            }
        }
    }
    let count = records.len() as u16 - 1;
    let [low, high] = count.to_le_bytes();
    records.push(vec![b'E', b'N', low, high]);
    records
}

fn at_times_damaged(
    rng: &mut Rng,
    board: Board,
    mut records: Vec<Vec<u8>>,
    codes: &[u8],
) -> Vec<u8> {
    if rng.chance(55) {
        for _ in 0..1 + rng.below(2) {
            damage_records(rng, &mut records, board, codes);
        }
    }
    let mut bytes = records.concat();
    if rng.chance(25) {
        damage_bytes(rng, &mut bytes);
    }
    bytes
}

fn damage_records(rng: &mut Rng, records: &mut Vec<Vec<u8>>, board: Board, codes: &[u8]) {
    let end = records.len();
    if end == 0 {
        return;
    }
    let one = rng.below(end);
    let vertices = board.vertices as u8;
    let odd_vertex = rng.pick(&[vertices, vertices + 1, 90, 255]);
    match rng.below(16) {
        0 => records.swap(one, rng.below(end)),
        1 => {
            // a neighbour, so that the file still begins and ends as it should
            if end > 3 {
                let one = 1 + rng.below(end - 3);
                records.swap(one, one + 1);
            }
        }
        2 => records.insert(one, records[one].clone()),
        3 => drop(records.remove(one)),
        4 => {
            let at = rng.below(end + 1);
            let cell = |v: usize| mostly_vertex(v, board);
            let (u, v) = (rng.below(260), rng.below(260));
            let code = if rng.chance(70) { rng.pick(codes) } else { rng.below(40) as u8 };
            records.insert(at, vec![b'C', b'E', cell(u), cell(v), code]);
        }
        5 => {
            // the end's count
            if let Some(count) = records.last_mut().and_then(|last| last.get_mut(2)) {
                *count = count.wrapping_add(rng.pick(&[1, 255]));
            }
        }
        6 => {
            if let Some(count) = records.last_mut().and_then(|last| last.get_mut(3)) {
                *count ^= 1;
            }
        }
        7 => {
            if let Some(record) = records.get_mut(1).filter(|record| record.len() > 4) {
                record[2 + rng.below(2)] = odd_vertex;
            }
        }
        8 | 9 => {
            // an arc's delay, or a cell's code, at or over the limits
            let record = &mut records[one];
            let delay: i32 = rng.pick(&[
                1_000_000_000,
                1_000_000_001,
                -1_000_000_000,
                -1_000_000_001,
                i32::MIN,
                i32::MAX,
            ]);
            match record.len() {
                8 => record[4..].copy_from_slice(&delay.to_le_bytes()),
                5 => record[4] = rng.pick(&[0, 4, 5, 6, 31, 32, 91, 255]),
                _ => {}
            }
        }
        10 => {
            // the sizes
            if let Some(size) = records[0].get_mut(2 + rng.below(3)) {
                *size = rng.pick(&[0, 1, size.wrapping_add(1), 90, 91, 255]);
            }
        }
        11 => {
            let mark = rng.pick(&[*b"BD", *b"EN", *b"AR", *b"CE", *b"ar", *b"EM", [0, 0]]);
            records[one][..2].copy_from_slice(&mark);
        }
        12..=14 => {
            // an arc into an input, a loop, or any other, in its right place
            let (u, v) = match rng.below(3) {
                0 => (rng.below(board.vertices), rng.below(board.inputs)),
                1 => {
                    let v = rng.below(board.vertices);
                    (v, v)
                }
                _ => (rng.below(board.vertices), rng.below(board.vertices)),
            };
            let pair = [u as u8, v as u8];
            let before = |record: &&Vec<u8>| {
                record[0] == b'B' || record[0] != b'E' && record.get(2..4) < Some(&pair[..])
            };
            let at = records.iter().take_while(before).count();
            if records.get(at).is_some_and(|record| record.get(2..4) != Some(&pair[..])) {
                records.insert(at, vec![b'C', b'E', pair[0], pair[1], rng.pick(codes)]);
                if let Some(end) = records.last_mut().filter(|end| end.len() == 4) {
                    let count = u16::from_le_bytes([end[2], end[3]]).wrapping_add(1);
                    end[2..].copy_from_slice(&count.to_le_bytes());
                }
            }
        }
        _ => {
            let length = rng.below(records[one].len());
            records[one].truncate(length.max(2));
        }
    }
}

/// A byte that is mostly a vertex of the board.
fn mostly_vertex(number: usize, board: Board) -> u8 {
    if number < 250 {
        (number % board.vertices) as u8
    } else {
        number as u8
    }
}

pub fn damage_bytes(rng: &mut Rng, bytes: &mut Vec<u8>) {
    match rng.below(6) {
        0 if !bytes.is_empty() => {
            let at = rng.below(bytes.len());
            bytes[at] = rng.next() as u8;
        }
        1 if !bytes.is_empty() => {
            let at = rng.below(bytes.len());
            bytes[at] ^= 1 << rng.below(8);
        }
        2 => bytes.truncate(rng.below(bytes.len() + 1)),
        3 => {
            let kept = bytes.len().saturating_sub(1 + rng.below(8));
            bytes.truncate(kept);
        }
        4 => bytes.truncate(rng.below(8)),
        _ => {
            for _ in 0..1 + rng.below(5) {
                bytes.push(rng.next() as u8);
            }
        }
    }
}
