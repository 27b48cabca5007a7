//! The scenarios of `second every` over C, call by call; bookings in a direction that is neither; lists in lent memory
//! of every length; summaries of every seat; and a book with each of its bytes damaged, and each bit of its summaries.

use super::LARGEST;
use crate::beside::{direction_number, Beside};
use crate::damage;
use library::{MqBook, BOOK_BYTES};
use second::calls::{self, Call};
use second::scenarios;

pub fn run(both: &mut Beside) {
    let scenarios = scenarios::all(&mut |line| {
        let call = calls::read(line.as_bytes()).expect("scenarios are calls");
        both.book = put(both, &call.expect("and have words"));
        Ok(())
    });
    scenarios.expect("nothing is printed");
    fill(both);
    lists(both);
    summaries(both);
    neither_direction(both);
    damaged(both);
    summary_damaged(both);
}

/// A call on the book; the book afterwards.
pub fn put(both: &mut Beside, call: &Call) -> MqBook {
    let b = both.book;
    match call.name {
        "open" => both.open(b, call.numbers()),
        "book" => {
            let [seat, timeslot, burst, factor, index, user, tfci, tpc] = call.numbers();
            let direction = direction_number(call.direction());
            both.book(b, seat, [timeslot, direction, burst, factor, index, user, tfci, tpc])
        }
        "cancel" => both.cancel(b, call.numbers()),
        "close" => {
            let [seat] = call.numbers();
            both.close(b, seat)
        }
        "summary" => {
            let [seat, timeslot] = call.numbers();
            both.summary(b, seat, timeslot);
            b
        }
        _ => {
            let [seat] = call.numbers();
            both.list(b, seat, 320);
            b
        }
    }
}

/// Fifteen seats ask for more than the common room takes, each for a few in its beacon timeslots too; seat 0 stays
/// closed.
fn fill(both: &mut Beside) {
    for seat in 1..16 {
        both.book = both.open(both.book, [seat, 8 * seat, 1 + seat % 2, seat % 7, 0, 0]);
        for p in 0..10 + seat {
            let timeslot = (seat + p) % 15;
            let booking = [timeslot, timeslot % 2, 1, 16, 1 + p / 15, 3, 0, 0];
            both.book = both.book(both.book, seat, booking);
        }
    }
}

fn lists(both: &mut Beside) {
    for seat in (0..=16).chain([LARGEST]) {
        for room in 0..=400 {
            both.list(both.book, seat, room);
        }
    }
}

/// Of every seat in every timeslot, and of what is none.
fn summaries(both: &mut Beside) {
    for seat in (0..=16).chain([LARGEST]) {
        for timeslot in (0..=16).chain([LARGEST]) {
            both.summary(both.book, seat, timeslot);
        }
    }
}

/// Over C a direction is a number, and one that is neither is refused.
fn neither_direction(both: &mut Beside) {
    for direction in [2, 3, 255, 256, LARGEST] {
        for seat in [0, 1, 16] {
            for timeslot in [0, 15] {
                for burst in 0..=4 {
                    for user in [0, 3, 17] {
                        for tfci in [0, 5] {
                            let booking = [timeslot, direction, burst, 16, 16, user, tfci, 0];
                            both.book = both.book(both.book, seat, booking);
                        }
                    }
                }
            }
        }
    }
}

/// A byte of 255 breaks the book's conditions wherever it stands: 12, and the same bytes back.
fn damaged(both: &mut Beside) {
    both.model.damaged = true;
    for place in 0..BOOK_BYTES {
        let mut broken = both.book;
        broken.0[place] = 255;
        every_call(both, broken);
    }
    both.model.damaged = false;
}

/// A single bit of a summary turned over breaks them too.
fn summary_damaged(both: &mut Beside) {
    both.model.damaged = true;
    for place in damage::summary_bytes() {
        for bit in 0..8 {
            let mut broken = both.book;
            broken.0[place] ^= 1 << bit;
            every_call(both, broken);
        }
    }
    both.model.damaged = false;
}

/// Every call of the class book, on one that breaks its conditions.
fn every_call(both: &mut Beside, broken: MqBook) {
    both.open(broken, [0, 0, 1, 0, 0, 0]);
    both.book(broken, 1, [14, 0, 1, 16, 16, 3, 0, 0]);
    both.cancel(broken, [1, 1, 16, 1]);
    both.close(broken, 1);
    both.list(broken, 1, 320);
    both.summary(broken, 1, 14);
}
