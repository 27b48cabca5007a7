//! Every call of the built static library over C, beside plain Rust doing the same work, in one run; hearing beside volk
//! besides; and how a booking's cost grows.
//!
//! First both sides must give the same answers and the same memory, refused calls included. Then they take turns in
//! rounds over the same inputs, and the best round of each is kept. Midambles by the block stand beside the library's
//! midambles in one call, too. The run fails where both sides differ, and where a limit of limits.rs does not hold.
//!
//! `benchmarks/run` builds and runs this; with the word `volk` what stands beside volk alone, with `growth` the growth.
//! Standard library only, and volk where benchmarks/run can link it (cfg volk).

mod blocks;
mod book;
mod copies;
mod dice;
mod growth;
mod hearing;
mod limits;
mod midambles;
mod paging;
mod plain;
mod refusals;
mod rows;
mod signal_card;
mod table;
mod timeslots;
#[cfg(volk)]
mod volk;

use copies::{TableCopy, LONG_COPY, LONG_OWN, SHORT_COPY, SHORT_OWN};
use limits::Limit;
use std::process::exit;

const ROUNDS: usize = 201;

/// What the marks of the tables mean.
fn notes(lines: &[table::Line]) {
    let best =
        |copy: &TableCopy| format!("{:.1} ns of {}", table::best_copy(lines, copy), copy.what);
    let (long, short) = (best(&LONG_COPY), best(&SHORT_COPY));
    println!("\n(*) less the copy of the row table: {long}, {short}, in this run; beside plain Rust that reads each digit once");
    println!("(**) for information, less the same copy: plain Rust that makes the floats of all sixteen digits at the level first");
    let (long, short) = (best(&LONG_OWN), best(&SHORT_OWN));
    println!("(***) less the copy that the library itself makes of the row table, one for each block: {long}, {short}, in this run, taken as what a block of one chip costs beyond plain Rust's, which is rather too much than too little; a midamble in blocks of 64 has 8 of them (type 2: 4), beside the whole one in one call, of which nothing is taken off");
    println!("(****) for information: plain Rust that makes the sums of four users at once");
}

/// The tables of all calls; whether their limits hold.
fn calls() -> bool {
    println!(
        "library and plain Rust give equal answers and equal memory: {} calls of midambles, {} of blocks, {} of the signal card, {} of hearing, {} of timeslots and beacons, {} of paging, {} of refusals' words, {} of the class book",
        midambles::compare(),
        blocks::compare(),
        signal_card::compare(),
        hearing::compare(),
        timeslots::compare(),
        paging::compare(),
        refusals::compare(),
        book::compare()
    );
    let mut lines: Vec<table::Line> = [
        midambles::lines(),
        blocks::lines(),
        signal_card::lines(),
        hearing::lines(),
        timeslots::lines(),
        paging::lines(),
        refusals::lines(),
        book::lines(),
    ]
    .into_iter()
    .flatten()
    .collect();
    let calls = lines.len();
    lines.extend(blocks::cuts());
    for round in 0..ROUNDS {
        for line in &mut lines {
            line.round(round);
        }
    }
    table::settle(&mut lines);
    println!("\nns a call over C, best of {ROUNDS} rounds; the calls of the class book on one with 120 bookings where no other number stands\n");
    table::print("call", table::SIDES, &lines[..calls]);
    println!();
    table::print("midamble by the block (***)", ["blocks ns", "one call ns"], &lines[calls..]);
    notes(&lines);
    let limits: [&Limit; 10] = [
        &limits::MIDAMBLE,
        &limits::MIDAMBLE_BY_DIGITS,
        &limits::BLOCK_BY_DIGITS,
        &limits::MIDAMBLE_IN_BLOCKS,
        &limits::PAIRS,
        &limits::PAIRS_BY_DIGITS,
        &limits::HEAR,
        &limits::PAGE,
        &limits::EMPTY_BOOK,
        &limits::SUMMARY,
    ];
    let held =
        limits.map(|limit| limit.holds(lines.iter().filter_map(|line| line.ratio_of(limit))));
    held == [true; 10]
}

/// The table of hearing beside volk, where that is there; whether its limits hold.
fn beside_volk() -> bool {
    #[cfg(volk)]
    return volk::run();
    #[cfg(not(volk))]
    {
        println!("volk is not here: apt-get install libvolk-dev (Debian 12: libvolk2-dev); two lines are left out");
        true
    }
}

/// The table of the growth; whether its limit holds.
fn bookings() -> bool {
    println!("library and plain Rust give equal answers: {} bookings inside the library, and the books they leave", growth::compare());
    limits::BOOKING.holds(growth::print(growth::measure()).into_iter())
}

fn main() {
    let words: Vec<String> = std::env::args().skip(1).collect();
    let fine = match words.iter().map(String::as_str).collect::<Vec<_>>()[..] {
        [] => {
            let calls = calls();
            println!();
            let volk = beside_volk();
            println!();
            bookings() && calls && volk
        }
        ["volk"] => beside_volk(),
        ["growth"] => bookings(),
        _ => {
            eprintln!(
                "benchmarks/run: all calls, hearing beside volk, and the growth; benchmarks/run volk, benchmarks/run growth: one of them alone"
            );
            exit(2);
        }
    };
    if !fine {
        exit(1);
    }
}
