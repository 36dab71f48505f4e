//! The calls of both sides in one form, each a function of its own so that its instructions can be
//! counted: `ours_*` are the proved ones, `rust_*` the second implementation's.

use second::board::Sizes;
use second::find_star::find_star;
use second::margins::{self, Answers};
use second::{delays, file, run, steps};

#[link(name = "meter", kind = "static")]
extern "C" {
    fn meter_matrix(
        inputs: u64,
        outputs: u64,
        vertices: u64,
        table: *const i32,
        table_length: u64,
        scratch: *mut i64,
        scratch_length: u64,
        matrix: *mut i64,
        matrix_length: u64,
    ) -> u64;
    fn meter_margins(
        inputs: u64,
        outputs: u64,
        vertices: u64,
        table: *const i32,
        table_length: u64,
        scratch: *const i64,
        scratch_length: u64,
        at_inputs: *const i64,
        at_inputs_length: u64,
        at_outputs: *const i64,
        at_outputs_length: u64,
        arrival: *mut i64,
        arrival_length: u64,
        required: *mut i64,
        required_length: u64,
        margin: *mut i64,
        margin_length: u64,
    ) -> u64;
    fn meter_find_star(
        inputs: u64,
        outputs: u64,
        vertices: u64,
        table: *const i32,
        table_length: u64,
        scratch: *const i64,
        scratch_length: u64,
        vertex: *mut u64,
        saving: *mut u64,
    ) -> u64;
    fn meter_prune(
        inputs: u64,
        outputs: u64,
        vertices: u64,
        table: *mut i32,
        table_length: u64,
        scratch: *mut i64,
        scratch_length: u64,
    ) -> u64;
    fn meter_read(
        bytes: *const u8,
        bytes_length: u64,
        table: *mut i32,
        table_length: u64,
        scratch: *const i64,
        scratch_length: u64,
        library: *const i32,
        library_length: u64,
    ) -> u64;
    fn meter_run(
        inputs: u64,
        outputs: u64,
        vertices: u64,
        table: *mut i32,
        table_length: u64,
        scratch: *mut i64,
        scratch_length: u64,
    ) -> u64;
}

/// What a call gets and leaves.
#[derive(Clone)]
pub struct Lent {
    pub sizes: Sizes,
    pub table: Vec<i32>,
    pub scratch: Vec<i64>,
    pub matrix: Vec<i64>,
    pub at_inputs: Vec<i64>,
    pub at_outputs: Vec<i64>,
    pub arrival: Vec<i64>,
    pub required: Vec<i64>,
    pub margin: Vec<i64>,
    pub vertex: u64,
    pub saving: u64,
    pub file: Vec<u8>,
    pub library: Vec<i32>,
}

pub type Side = extern "C" fn(&mut Lent) -> u64;

pub const CALLS: [(&str, Side, Side); 6] = [
    ("matrix", ours_matrix, rust_matrix),
    ("margins", ours_margins, rust_margins),
    ("prune", ours_prune, rust_prune),
    ("find_star", ours_find_star, rust_find_star),
    ("run", ours_run, rust_run),
    ("read", ours_read, rust_read),
];

#[no_mangle]
#[inline(never)]
pub extern "C" fn ours_matrix(lent: &mut Lent) -> u64 {
    let Sizes { inputs, outputs, vertices } = lent.sizes;
    // each pointer is to a run of the length given with it
    unsafe {
        meter_matrix(
            inputs,
            outputs,
            vertices,
            lent.table.as_ptr(),
            lent.table.len() as u64,
            lent.scratch.as_mut_ptr(),
            lent.scratch.len() as u64,
            lent.matrix.as_mut_ptr(),
            lent.matrix.len() as u64,
        )
    }
}

#[no_mangle]
#[inline(never)]
pub extern "C" fn ours_margins(lent: &mut Lent) -> u64 {
    let Sizes { inputs, outputs, vertices } = lent.sizes;
    // as above
    unsafe {
        meter_margins(
            inputs,
            outputs,
            vertices,
            lent.table.as_ptr(),
            lent.table.len() as u64,
            lent.scratch.as_ptr(),
            lent.scratch.len() as u64,
            lent.at_inputs.as_ptr(),
            lent.at_inputs.len() as u64,
            lent.at_outputs.as_ptr(),
            lent.at_outputs.len() as u64,
            lent.arrival.as_mut_ptr(),
            lent.arrival.len() as u64,
            lent.required.as_mut_ptr(),
            lent.required.len() as u64,
            lent.margin.as_mut_ptr(),
            lent.margin.len() as u64,
        )
    }
}

#[no_mangle]
#[inline(never)]
pub extern "C" fn ours_prune(lent: &mut Lent) -> u64 {
    let Sizes { inputs, outputs, vertices } = lent.sizes;
    // as above
    unsafe {
        meter_prune(
            inputs,
            outputs,
            vertices,
            lent.table.as_mut_ptr(),
            lent.table.len() as u64,
            lent.scratch.as_mut_ptr(),
            lent.scratch.len() as u64,
        )
    }
}

#[no_mangle]
#[inline(never)]
pub extern "C" fn ours_find_star(lent: &mut Lent) -> u64 {
    let Sizes { inputs, outputs, vertices } = lent.sizes;
    // as above, and the last two are to a number each
    unsafe {
        meter_find_star(
            inputs,
            outputs,
            vertices,
            lent.table.as_ptr(),
            lent.table.len() as u64,
            lent.scratch.as_ptr(),
            lent.scratch.len() as u64,
            &mut lent.vertex,
            &mut lent.saving,
        )
    }
}

#[no_mangle]
#[inline(never)]
pub extern "C" fn ours_run(lent: &mut Lent) -> u64 {
    let Sizes { inputs, outputs, vertices } = lent.sizes;
    // as above
    unsafe {
        meter_run(
            inputs,
            outputs,
            vertices,
            lent.table.as_mut_ptr(),
            lent.table.len() as u64,
            lent.scratch.as_mut_ptr(),
            lent.scratch.len() as u64,
        )
    }
}

#[no_mangle]
#[inline(never)]
pub extern "C" fn ours_read(lent: &mut Lent) -> u64 {
    // as above
    unsafe {
        meter_read(
            lent.file.as_ptr(),
            lent.file.len() as u64,
            lent.table.as_mut_ptr(),
            lent.table.len() as u64,
            lent.scratch.as_ptr(),
            lent.scratch.len() as u64,
            lent.library.as_ptr(),
            lent.library.len() as u64,
        )
    }
}

#[no_mangle]
#[inline(never)]
pub extern "C" fn rust_matrix(lent: &mut Lent) -> u64 {
    number(delays::matrix(lent.sizes, &lent.table, lent.scratch.len(), &mut lent.matrix))
}

#[no_mangle]
#[inline(never)]
pub extern "C" fn rust_margins(lent: &mut Lent) -> u64 {
    number(margins::margins(
        lent.sizes,
        &lent.table,
        lent.scratch.len(),
        &lent.at_inputs,
        &lent.at_outputs,
        Answers {
            arrival: &mut lent.arrival,
            required: &mut lent.required,
            margin: &mut lent.margin,
        },
    ))
}

#[no_mangle]
#[inline(never)]
pub extern "C" fn rust_prune(lent: &mut Lent) -> u64 {
    number(steps::prune(lent.sizes, &mut lent.table, lent.scratch.len()))
}

#[no_mangle]
#[inline(never)]
pub extern "C" fn rust_find_star(lent: &mut Lent) -> u64 {
    number(find_star(lent.sizes, &lent.table, lent.scratch.len()).map(|found| {
        if let Some(found) = found {
            (lent.vertex, lent.saving) = (found.vertex, found.saving);
        }
    }))
}

#[no_mangle]
#[inline(never)]
pub extern "C" fn rust_run(lent: &mut Lent) -> u64 {
    number(run::run(lent.sizes, &mut lent.table, lent.scratch.len()))
}

#[no_mangle]
#[inline(never)]
pub extern "C" fn rust_read(lent: &mut Lent) -> u64 {
    let read = file::read(&lent.file, &mut lent.table, lent.scratch.len(), &lent.library);
    number(read.map_err(|refused| refused.number))
}

/// 0, or the refusal's number.
fn number<A>(result: Result<A, u64>) -> u64 {
    result.err().unwrap_or(0)
}
