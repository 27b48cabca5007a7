//! The summaries among the scenarios of the class book in `second every`: calls only, no answers.
//!
//! Seat 14, whose beacon timeslot is 0, and seat 15, whose are 3 and 11, are open; seat 13 is closed.

use crate::book::codes;
use crate::every::{Put, LARGEST};
use std::io;

/// All of them.
pub fn all(put: Put) -> io::Result<()> {
    ask(put)?;
    put(OPEN_14.to_string())?;
    put(OPEN_15.to_string())?;
    ask(put)?;
    every_code(put)?;
    leaf_by_leaf(put)?;
    last_bookings(put)?;
    in_both_seats(put)?;
    refused_between(put)?;
    closed_with_bookings(put)?;
    put("close 14".to_string())?;
    put("close 15".to_string())?;
    ask(put)
}

const OPEN_14: &str = "open 14 14 1 0 16 6";
const OPEN_15: &str = "open 15 15 2 3 16 6";

/// Asks the two seats that are open, the one that is closed, and two that are none, for every timeslot and for two that
/// are none.
fn ask(put: Put) -> io::Result<()> {
    for seat in [14, 15, 13, 16, LARGEST] {
        for timeslot in (0..=15).chain([LARGEST]) {
            put(format!("summary {seat} {timeslot}"))?;
        }
    }
    Ok(())
}

/// A call that changes the book, or is refused, and then every summary.
fn change(put: Put, call: impl ToString) -> io::Result<()> {
    put(call.to_string())?;
    ask(put)
}

/// Every code by itself, in both directions and with types 1 and 2, and the timeslots 1 to 14 in turn. In downlink the
/// factors 2, 4 and 8 are refused, and then their cancels.
fn every_code(put: Put) -> io::Result<()> {
    let mut timeslots = (1..=14).cycle();
    for burst_type in [1, 2] {
        for direction in ["up", "down"] {
            for ((factor, index), timeslot) in codes().zip(timeslots.by_ref()) {
                let code = format!("{factor} {index}");
                change(put, format!("book 14 {timeslot} {direction} {burst_type} {code} 3 0 0"))?;
                change(put, format!("cancel 14 {timeslot} {code}"))?;
            }
        }
    }
    Ok(())
}

/// The first timeslot, which is the seat's beacon, and the last one are filled leaf by leaf, and emptied in the order
/// 10, 15, 4, 9, 14, 3 and so on.
fn leaf_by_leaf(put: Put) -> io::Result<()> {
    for (timeslot, direction) in [(0, "down"), (14, "up")] {
        for index in 1..=16 {
            // In a beacon timeslot code (16, 1) takes user 1, and user 1 goes to no other.
            let user = if index == 1 { 1 } else { 3 };
            change(put, format!("book 14 {timeslot} {direction} 1 16 {index} {user} 0 0"))?;
        }
        for n in 0..16 {
            change(put, format!("cancel 14 {timeslot} 16 {}", 1 + (5 * n + 9) % 16))?;
        }
    }
    Ok(())
}

/// Two bookings of a timeslot are cancelled, and another is made in the other direction, of the other type, and both.
fn last_bookings(put: Put) -> io::Result<()> {
    let bursts = ["up 1", "up 2", "down 1", "down 2"];
    for first in bursts {
        for other in bursts.into_iter().filter(|other| *other != first) {
            change(put, format!("book 14 6 {first} 16 5 3 0 0"))?;
            change(put, format!("book 14 6 {first} 16 12 3 0 0"))?;
            change(put, "cancel 14 6 16 5")?;
            change(put, "cancel 14 6 16 12")?;
            change(put, format!("book 14 6 {other} 16 5 3 0 0"))?;
            change(put, "cancel 14 6 16 5")?;
        }
    }
    Ok(())
}

/// Every code in both seats, the second having it with another type and, where it may, in downlink. The first seat
/// cancels it before the second does.
fn in_both_seats(put: Put) -> io::Result<()> {
    for ((factor, index), timeslot) in codes().zip((4..=10).cycle()) {
        let direction = if [1, 16].contains(&factor) { "down" } else { "up" };
        change(put, format!("book 14 {timeslot} up 1 {factor} {index} 3 0 0"))?;
        change(put, format!("book 15 {timeslot} {direction} 2 {factor} {index} 3 0 0"))?;
        change(put, format!("cancel 14 {timeslot} {factor} {index}"))?;
        change(put, format!("cancel 15 {timeslot} {factor} {index}"))?;
    }
    Ok(())
}

/// Refused bookings and refused cancels, where both seats hold something in timeslot 5: of a code that is held, of one
/// that covers it and one that it covers, of the other type and direction, in timeslots beside it, of the other seat's
/// code, and numbers just outside the rules.
fn refused_between(put: Put) -> io::Result<()> {
    for booking in ["14 5 up 1 4 2 3 0 0", "14 5 up 3 16 16 3 0 0", "15 5 down 1 16 1 3 0 0"] {
        change(put, format!("book {booking}"))?;
    }
    for booking in [
        "14 5 up 1 4 2 3 0 0",
        "14 5 up 1 2 1 3 0 0",
        "14 5 up 1 8 4 3 0 0",
        "14 5 up 2 16 1 3 0 0",
        "14 5 down 1 16 1 3 0 0",
        "14 5 up 1 16 17 3 0 0",
        "14 5 up 1 16 1 17 0 0",
        "14 0 up 1 16 1 3 0 0",
        "14 15 up 1 16 1 3 0 0",
        "13 5 up 1 16 1 3 0 0",
        "16 5 up 1 16 1 3 0 0",
    ] {
        change(put, format!("book {booking}"))?;
    }
    for not_held in [
        "14 5 2 1",
        "14 5 8 4",
        "14 5 4 1",
        "14 5 4 5",
        "14 4 4 2",
        "14 6 4 2",
        "14 15 4 2",
        "15 5 4 2",
        "13 5 4 2",
        "16 5 4 2",
    ] {
        change(put, format!("cancel {not_held}"))?;
    }
    for held in ["14 5 4 2", "15 5 16 1", "14 5 16 16"] {
        change(put, format!("cancel {held}"))?;
    }
    Ok(())
}

/// Both seats book by turns in seven timeslots, in both directions. Each of them is closed while the other holds its
/// bookings, opened again, and books the other way round.
fn closed_with_bookings(put: Put) -> io::Result<()> {
    for timeslot in 4..=10 {
        let [first, second] = if timeslot % 2 == 0 { ["up", "down"] } else { ["down", "up"] };
        change(put, format!("book 14 {timeslot} {first} 1 16 {timeslot} 3 0 0"))?;
        change(put, format!("book 15 {timeslot} {second} 2 16 {timeslot} 3 0 0"))?;
    }
    change(put, "close 14")?;
    change(put, OPEN_14)?;
    change(put, "book 14 4 down 2 16 13 3 0 0")?;
    change(put, "close 15")?;
    change(put, OPEN_15)?;
    change(put, "book 15 4 up 1 2 1 3 0 0")
}
