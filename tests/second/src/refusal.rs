//! The refusals of documents 01 and 02, by number.

pub type Refusal = u64;

pub const SIZES: Refusal = 1;
pub const SHORT_TABLE: Refusal = 2;
pub const SHORT_SCRATCH: Refusal = 3;
pub const CELL: Refusal = 4;
pub const ARC_INTO_INPUT: Refusal = 5;
pub const CYCLE: Refusal = 6;
pub const VERTEX: Refusal = 7;
pub const NEW_NUMBER: Refusal = 8;
pub const LISTS: Refusal = 9;
pub const SHAPE: Refusal = 10;
pub const NO_COMMON_DIFFERENCE: Refusal = 11;
pub const PATH_BACK: Refusal = 12;
pub const NOTHING_SAVED: Refusal = 13;
pub const NEW_DELAY: Refusal = 14;
pub const BYTES_END: Refusal = 15;
pub const MARK: Refusal = 16;
pub const FIELD: Refusal = 17;
pub const NOT_RISING: Refusal = 18;
pub const END_COUNT: Refusal = 19;
pub const BYTES_AFTER_END: Refusal = 20;
pub const SHORT_DESTINATION: Refusal = 21;
pub const TIMES: Refusal = 22;
pub const LIBRARY: Refusal = 23;
