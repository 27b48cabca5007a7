//! Counts that are 0 in opening beside counts given outright, among the scenarios of the class book in `second every`:
//! calls only, no answers.
//!
//! Seats 11 to 15 are open in one book, each with counts of its own. No timeslot here is a beacon.

use crate::every::Put;
use std::io;

const SEATS: [u32; 5] = [11, 12, 13, 14, 15];

/// The long and the short count of an opening, one for each seat. Each seat goes on to the next ones.
const COUNTS: [[u32; 2]; 5] = [[0, 0], [16, 6], [0, 6], [16, 0], [8, 3]];

/// All of them. Each seat has each of the counts in turn, and at the end those that it began with.
pub fn all(put: Put) -> io::Result<()> {
    for (seat, counts) in SEATS.into_iter().zip(COUNTS) {
        open(put, seat, counts)?;
    }
    SEATS.into_iter().try_for_each(|seat| ask(put, seat))?;
    list_all(put)?;
    for turn in 1..=COUNTS.len() {
        for (place, seat) in (turn..).zip(SEATS) {
            open_again(put, seat, COUNTS[place % COUNTS.len()])?;
        }
    }
    SEATS.into_iter().try_for_each(|seat| put(format!("close {seat}")))
}

fn open(put: Put, seat: u32, [long_count, short_count]: [u32; 2]) -> io::Result<()> {
    put(format!("open {seat} {seat} 1 0 {long_count} {short_count}"))
}

/// Users on both sides of what the counts permit, each with a code of its own: of types 1 and 3 in one timeslot, of
/// type 2 in another. Those that are accepted are kept.
fn ask(put: Put, seat: u32) -> io::Result<()> {
    for (index, user) in (1..).zip([8, 9, 16, 17]) {
        put(format!("book {seat} 5 up 1 16 {index} {user} 0 0"))?;
        put(format!("book {seat} 5 up 3 16 {} {user} 0 0", index + 8))?;
    }
    for (index, user) in (1..).zip([3, 4, 6, 7]) {
        put(format!("book {seat} 6 up 2 16 {index} {user} 0 0"))?;
    }
    Ok(())
}

fn list_all(put: Put) -> io::Result<()> {
    SEATS.into_iter().try_for_each(|seat| put(format!("list {seat}")))
}

/// A seat that is open gets these counts: first without being closed, which is refused, so that it asks under those
/// that it has; then closed, while the others hold what they booked, and opened with them.
fn open_again(put: Put, seat: u32, counts: [u32; 2]) -> io::Result<()> {
    open(put, seat, counts)?;
    ask(put, seat)?;
    put(format!("close {seat}"))?;
    list_all(put)?;
    open(put, seat, counts)?;
    ask(put, seat)?;
    list_all(put)
}
