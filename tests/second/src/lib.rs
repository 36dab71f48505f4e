//! Document 01, and tickets 1 to 7 of document 02, written a second time, from their text alone.
//!
//! Nothing here is shared with the proved crates; the random test (`src/bin/random`) holds the two
//! against each other. Each call takes any sizes and vertex numbers, the lent table, and the lent
//! scratch by its length only: this implementation brings its own working memory.

pub mod board;
pub mod delays;
pub mod file;
pub mod find_star;
pub mod library;
pub mod literal;
pub mod margins;
pub mod order;
pub mod records;
pub mod refusal;
pub mod run;
pub mod steps;
pub mod thin;
