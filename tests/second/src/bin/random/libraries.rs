//! Random cell libraries: lent cells and library files, well formed and damaged.

use crate::files;
use crate::rng::Rng;
use second::board::Board;
use second::library::{Library, CODES, MOST_TICKS};
use second::records::RefusedRead;

/// A library that passes.
pub fn is_sound(library: &[i32]) -> bool {
    Library::lent(library).is_ok()
}

/// Cells to put before a call, at times; odd ones don't stay for long.
pub fn put(rng: &mut Rng, library: &[i32]) -> Option<Vec<i32>> {
    if !is_sound(library) {
        rng.chance(60).then(|| sound(rng))
    } else if rng.chance(20) {
        Some(if rng.chance(20) { odd(rng) } else { sound(rng) })
    } else {
        None
    }
}

/// Cells that pass, of all codes, of some, or of none.
pub fn sound(rng: &mut Rng) -> Vec<i32> {
    let present = rng.pick(&[0, 5, 20, 50, 90, 100, 100]);
    let mut cell = || if rng.chance(present) { ticks(rng) } else { Board::ABSENT };
    (0..CODES).map(|_| cell()).collect()
}

fn ticks(rng: &mut Rng) -> i32 {
    let ticks = match rng.below(4) {
        0 => rng.within(0, 9),
        1 => rng.within(0, 70_000),
        2 => rng.within(0, MOST_TICKS.into()),
        _ => i64::from(MOST_TICKS) - rng.within(0, 2),
    };
    ticks as i32
}

/// Ticks out of range; the absent mark is too, in a file.
fn odd_ticks(rng: &mut Rng) -> i32 {
    rng.pick(&[-1, MOST_TICKS + 1, i32::MIN + 1, i32::MAX, -MOST_TICKS, 1 << 24])
}

/// Cells that don't pass.
fn odd(rng: &mut Rng) -> Vec<i32> {
    let mut cells = sound(rng);
    if rng.chance(50) {
        let length = rng.pick(&[0, 1, 31, 33, 63, 64]);
        cells.resize_with(length, || rng.pick(&[Board::ABSENT, 0, 7, -1]));
    } else {
        for _ in 0..rng.pick(&[1, 1, 1, 40]) {
            cells[rng.below(CODES)] = odd_ticks(rng);
        }
    }
    cells
}

/// The bytes of a library file.
pub fn file(rng: &mut Rng) -> Vec<u8> {
    let cells = sound(rng);
    let present = (0u8..).zip(&cells).filter(|(_, &ticks)| ticks != Board::ABSENT);
    let record = |(code, ticks): (u8, &i32)| [b"CL", &[code][..], &ticks.to_le_bytes()].concat();
    let mut records: Vec<Vec<u8>> = present.map(record).collect();
    records.push(vec![b'E', b'N', records.len() as u8, 0]);
    if rng.chance(60) {
        let one = rng.below(records.len());
        for _ in 0..1 + rng.below(3) {
            // mostly the same, to have faults that compete
            let at = if rng.chance(80) { one } else { rng.below(CODES) };
            damage(rng, &mut records, at);
        }
    }
    let mut bytes = records.concat();
    if rng.chance(15) {
        files::damage_bytes(rng, &mut bytes);
    }
    bytes
}

fn damage(rng: &mut Rng, records: &mut Vec<Vec<u8>>, one: usize) {
    let end = records.len();
    if one >= end {
        return;
    }
    match rng.below(12) {
        0 => lay(&mut records[one], 2, &[rng.pick(&[32, 33, 64, 128, 255])]),
        1 | 2 => {
            let odd = if rng.chance(20) { Board::ABSENT } else { odd_ticks(rng) };
            lay(&mut records[one], 3, &odd.to_le_bytes());
        }
        3 => {
            // the code before, or the next lower one
            if let Some(&code) = records[..one].last().and_then(|before| before.get(2)) {
                lay(&mut records[one], 2, &[code.saturating_sub(rng.below(2) as u8)]);
            }
        }
        4 => {
            let marks = [*b"BD", *b"EN", *b"AR", *b"CE", *b"CL", *b"cl", *b"LC", [0, 0]];
            lay(&mut records[one], 0, &rng.pick(&marks));
        }
        5 | 6 => {
            // the file's end inside or before the record
            records.truncate(one + 1);
            let length = rng.below(records[one].len().max(1));
            records[one].truncate(length);
        }
        7 => {
            if let Some(end) = records.iter_mut().rfind(|record| record.starts_with(b"EN")) {
                let place = 2 + rng.below(2);
                if let Some(count) = end.get_mut(place) {
                    *count = count.wrapping_add(rng.pick(&[1, 255]));
                }
            }
        }
        8 => records.push((0..1 + rng.below(8)).map(|_| rng.next() as u8).collect()),
        9 => records.swap(one, rng.below(end)),
        10 => records.insert(one, records[one].clone()),
        _ => drop(records.remove(one)),
    }
}

/// Bytes in a record, where it is that long.
fn lay(record: &mut [u8], at: usize, bytes: &[u8]) {
    if let Some(place) = record.get_mut(at..at + bytes.len()) {
        place.copy_from_slice(bytes);
    }
}

/// The number of a second fault of a refused file, at or right after the record that was refused.
pub fn second_fault(file: &[u8], refused: RefusedRead) -> Option<u64> {
    let at = refused.offset as usize;
    let record = &file[at..];
    let code = record.get(2).copied().filter(|_| record.starts_with(b"CL"));
    // all records before are whole
    let before = at.checked_sub(7).map(|before| file[before + 2]);
    let falls = code.is_some_and(|code| before.is_some_and(|before| code <= before));
    let ticks = record.get(3..).and_then(|rest| rest.first_chunk());
    let ticks = ticks.map(|&ticks| i32::from_le_bytes(ticks));
    match refused.number {
        16 if record.len() < 4 => Some(15),
        15 if code.is_some_and(|code| code > 31) => Some(17),
        15 | 23 if falls => Some(18),
        17 if ticks.is_some_and(|ticks| !(0..=MOST_TICKS).contains(&ticks)) => Some(23),
        19 if record.len() > 4 => Some(20),
        _ => None,
    }
}
