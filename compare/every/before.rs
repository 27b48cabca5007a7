//! A book of version 0.7.0, in which a count of 0 in opening stood for 16 and 6 (data/opened-before.txt). The same calls
//! with 16 and 6 outright give its very bytes: a seat that was opened then keeps its counts, and answers as it did.

use super::book::put;
use crate::beside::Beside;
use crate::fail;
use library::{empty_book, BOOK_BYTES};
use second::book::Book;
use second::calls;

const KEPT: &str = include_str!("../../data/opened-before.txt");
const SEAT_BYTES: usize = BOOK_BYTES / 16;

/// An opening line with 16 and 6 in the place of 0; any other line as it is.
fn outright(line: &str) -> String {
    let mut words: Vec<&str> = line.split(' ').collect();
    if words[0] == "open" {
        for (place, count) in [(5, "16"), (6, "6")] {
            if words[place] == "0" {
                words[place] = count;
            }
        }
    }
    words.join(" ")
}

/// A seat's number and its bytes, of a line that has them.
fn kept_seat(line: &str) -> Option<(usize, Vec<u8>)> {
    let (seat, digits) = line.strip_prefix("bytes ")?.split_once(' ')?;
    let byte = |place| u8::from_str_radix(&digits[place..place + 2], 16).expect("two digits");
    Some((seat.parse().expect("a seat"), (0..digits.len()).step_by(2).map(byte).collect()))
}

fn call(both: &mut Beside, line: &str) {
    let call = calls::read(line.as_bytes()).expect("these lines are calls");
    both.book = put(both, &call.expect("and have words"));
}

fn start(both: &mut Beside) {
    both.model = Book::empty();
    both.book = empty_book();
}

pub fn run(both: &mut Beside) {
    start(both);
    let mut kept = both.book;
    for line in KEPT.lines().filter(|line| !line.starts_with('#')) {
        match kept_seat(line) {
            Some((seat, bytes)) => {
                kept.0[SEAT_BYTES * seat..SEAT_BYTES * (seat + 1)].copy_from_slice(&bytes)
            }
            None => call(both, &outright(line)),
        }
    }
    if let Some(at) = (0..BOOK_BYTES).find(|&at| both.book.0[at] != kept.0[at]) {
        let (now, then) = (both.book.0[at], kept.0[at]);
        fail(&format!("the book of version 0.7.0 made anew: byte {at} is {now}, and was {then}"));
    }
    // What its seats hold, and what they are asked for next: users of 16 and 6, where they have these counts.
    for seat in 0..16 {
        for line in [
            format!("list {seat}"),
            format!("book {seat} 10 up 1 16 1 9 0 0"),
            format!("book {seat} 10 up 3 16 2 16 0 0"),
            format!("book {seat} 11 up 2 16 1 4 0 0"),
            format!("book {seat} 11 up 2 16 2 6 0 0"),
            format!("list {seat}"),
            format!("close {seat}"),
        ] {
            call(both, &line);
        }
    }
    start(both);
}
