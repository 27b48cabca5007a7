//! The second, independent program: plain Rust, standard library only, written from document 01, what document 02 mends
//! in it and adds to it, and the line formats of docs/LESSONS.md, without sight of the proved library.
//!
//! The rules stand here as naively as they stand in the documents; a module is a chapter of document 01, or what a
//! request of document 02 adds to it (`blocks`, `hearing`, `signal_card`, `summaries`). The others read and answer
//! lessons (`calls`, `lesson`), make them (`every`, `random` and what they use, `noise`), and check the figures
//! (`selftest`). `main.rs` is the program; `compare/` puts the same model beside the library over C.
//!
//! `tools/second` builds both, once, into target/second.

// ---- document 01, as document 02 mends it and adds to it
pub mod beacons;
pub mod blocks;
pub mod book;
pub mod hearing;
pub mod midambles;
pub mod paging;
pub mod refusals;
pub mod rows;
pub mod selftest;
pub mod signal_card;
pub mod summaries;
pub mod timeslots;

// ---- lessons, answered
pub mod calls;
pub mod lesson;

// ---- lessons, made
mod bookings;
pub mod dice;
pub mod every;
mod moods;
pub mod noise;
mod questions;
pub mod random;
pub mod samples;
pub mod scenarios;
mod scribbles;
