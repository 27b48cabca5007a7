//! Every question of docs/COMPARISON.md, over C.

mod before;
mod blocks;
mod book;
mod hearing;
mod midambles;
mod paging;
mod signal_card;
mod timeslots;

use crate::beside::{Beside, Tally};
use second::rows::Rows;

const LARGEST: u32 = u32::MAX;

/// What was compared.
pub fn run(rows: &Rows) -> Tally {
    let both = &mut Beside::new(rows);
    midambles::run(both);
    blocks::run(both);
    signal_card::run(both);
    hearing::run(both);
    timeslots::run(both);
    paging::run(both);
    before::run(both);
    book::run(both);
    both.tally.clone()
}
