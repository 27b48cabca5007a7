//! The calls in plain Rust, by chapter: what a Rust programmer would write who knows document 01 and checks the same
//! refusals. No call here is inlined into the timing loops: the library's cannot be either.

pub mod blocks;
pub mod book;
pub mod digits;
pub mod hearing;
pub mod midambles;
pub mod paging;
pub mod refusals;
pub mod signal_card;
pub mod timeslots;
