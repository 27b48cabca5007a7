//! The scenarios of the class book in `second every`: calls only, no answers.

mod defaults;
mod summaries;

use crate::book::{Book, Record, Settings, SEATS};
use crate::every::{Put, LARGEST};
use crate::timeslots::Direction;
use std::io;

/// All of them, one after the other. Each begins and ends with all seats closed.
pub fn all(put: Put) -> io::Result<()> {
    figure(put)?;
    room(put)?;
    openings(put)?;
    bookings(put)?;
    kept_bookings(put)?;
    burst_types(put)?;
    types_1_and_3(put)?;
    users(put)?;
    summaries::all(put)?;
    defaults::all(put)
}

/// Seat 3 of "Figures to check".
fn figure(put: Put) -> io::Result<()> {
    for line in ["open 3 0 1 0 0 0", "book 3 2 down 1 16 3 4 0 0", "book 3 0 down 1 16 1 1 0 0"] {
        put(line.to_string())?;
    }
    for seat in [3, 2, 16, LARGEST] {
        put(format!("list {seat}"))?;
    }
    put("close 3".to_string())
}

/// Booking P of a seat: timeslot 1 + P mod 14, code (16, 1 + P div 14).
fn numbered(seat: u32, p: u32) -> String {
    format!("book {seat} {} up 1 16 {} 1 0 0", 1 + p % 14, 1 + p / 14)
}

/// A seat makes its bookings 0 to `last`.
fn numbered_to(put: Put, seat: u32, last: u32) -> io::Result<()> {
    (0..=last).try_for_each(|p| put(numbered(seat, p)))
}

/// "Three seats hold 40, 40 and 30, nobody else any: those at 40 get 19, the third gets 20, and an empty seat still
/// books 10"; and room set free by cancel and by close.
fn room(put: Put) -> io::Result<()> {
    (0..SEATS).try_for_each(|seat| put(format!("open {seat} {seat} 1 0 0 0")))?;
    for (seat, last) in [(0, 40), (1, 40), (2, 30), (3, 10)] {
        numbered_to(put, seat, last)?;
    }
    put(numbered(0, 40))?;
    put("cancel 0 1 16 1".to_string())?;
    put(numbered(3, 10))?;
    put(numbered(0, 0))?;
    put("cancel 3 1 16 2".to_string())?;
    put("close 1".to_string())?;
    put(numbered(2, 30))?;
    put(numbered(0, 0))?;
    put(numbered(1, 0))?;
    put("open 1 1 1 0 0 0".to_string())?;
    numbered_to(put, 1, 10)?;
    (0..SEATS).try_for_each(|seat| put(format!("list {seat}")))?;
    (0..SEATS).try_for_each(|seat| put(format!("close {seat}")))
}

/// Openings of seat 2 with settings on both sides of every rule, each with a close behind it.
fn openings(put: Put) -> io::Result<()> {
    for cell in [0, 127, 128, LARGEST] {
        for case in [0, 1, 2, 3] {
            for k in [0, 6, 7, 14, 15] {
                for long_count in [0, 2, 3, 4, 5, 8, 9, 16] {
                    for short_count in [0, 3, 4, 6, 8] {
                        put(format!("open 2 {cell} {case} {k} {long_count} {short_count}"))?;
                        put("close 2".to_string())?;
                    }
                }
            }
        }
    }
    for line in ["2 127 2 6 8 3", "2 127 2 6 8 3", "2 128 2 6 8 3", "16 127 2 6 8 3"] {
        put(format!("open {line}"))?;
    }
    put(format!("open {LARGEST} 127 2 7 8 3"))?;
    [3, 16, LARGEST, 2, 2].into_iter().try_for_each(|seat| put(format!("close {seat}")))
}

/// Two open seats, and bookings on both sides of every rule. One that is accepted is listed and cancelled, so each is
/// made on the book as the openings left it.
fn bookings(put: Put) -> io::Result<()> {
    let opened = Book::empty();
    let opened = open(put, opened, 5, [7, 2, 3, 8, 3])?;
    let opened = open(put, opened, 6, [8, 1, 14, 16, 6])?;
    for seat in [4, 5, 6, 16] {
        for record in records() {
            by_itself(put, &opened, seat, record)?;
        }
    }
    put("close 5".to_string())?;
    put("close 6".to_string())
}

/// A booking on the book as the openings left it: one that is accepted is listed and cancelled.
fn by_itself(put: Put, opened: &Book, seat: u32, record: Record) -> io::Result<()> {
    put(format!("book {seat} {}", record.words()))?;
    if opened.booking_refusals(seat, &record).is_ok() {
        put(format!("list {seat}"))?;
        let Record { timeslot, factor, index, .. } = record;
        put(format!("cancel {seat} {timeslot} {factor} {index}"))?;
    }
    Ok(())
}

/// An opening, on the lesson's book and on the one given.
fn open(put: Put, mut book: Book, seat: u32, numbers: [u32; 5]) -> io::Result<Book> {
    let [cell, case, k, long_count, short_count] = numbers;
    let settings = Settings { cell, case, k, long_count, short_count };
    book.open(seat, settings).expect("these settings pass");
    put(format!("open {seat} {cell} {case} {k} {long_count} {short_count}"))?;
    Ok(book)
}

/// Timeslot, direction, type and factor of a booking, and then its index, user, TFCI and TPC bits.
fn records() -> impl Iterator<Item = Record> {
    let codes = [0, 3, 11, 14, 15].into_iter().flat_map(|timeslot| {
        [Direction::Up, Direction::Down].into_iter().flat_map(move |direction| {
            (0..=4).flat_map(move |burst_type| {
                [0, 1, 2, 3, 16, LARGEST].map(|factor| (timeslot, direction, burst_type, factor))
            })
        })
    });
    codes.flat_map(|(timeslot, direction, burst_type, factor)| {
        rest_of_records().into_iter().map(move |[index, user, tfci_bits, tpc_bits]| Record {
            timeslot,
            direction,
            burst_type,
            factor,
            index,
            user,
            tfci_bits,
            tpc_bits,
        })
    })
}

/// Index, user, TFCI and TPC bits.
fn rest_of_records() -> Vec<[u32; 4]> {
    let mut rest = Vec::new();
    for index in [0, 1, 2, 16, 17] {
        for user in [0, 1, 2, 3, 4, 6, 7, 8, 9, 10, 16, 17] {
            for tfci_bits in [0, 4, 5] {
                for tpc_bits in [0, 1, 2] {
                    rest.push([index, user, tfci_bits, tpc_bits]);
                }
            }
        }
    }
    rest
}

/// Four hundred bookings of one seat, kept where they are accepted, with a cancel after every fifth and a list after
/// every twentieth.
fn kept_bookings(put: Put) -> io::Result<()> {
    put("open 9 0 1 0 16 6".to_string())?;
    for m in 0..400 {
        let x = (m * 7919 + 12345) % 65536;
        let direction = if x / 4 % 2 == 0 { "up" } else { "down" };
        let factor = 2_u32.pow(x / 32 % 5);
        let index = 1 + x / 256 % factor;
        let (timeslot, burst_type, user) = (x % 4, 1 + x / 8 % 3, 1 + x / 64 % 6);
        put(format!("book 9 {timeslot} {direction} {burst_type} {factor} {index} {user} 0 0"))?;
        if m % 5 == 4 {
            put(format!("cancel 9 {timeslot} {factor} {index}"))?;
        }
        if m % 20 == 19 {
            put("list 9".to_string())?;
        }
    }
    put("close 9".to_string())?;
    put("list 9".to_string())
}

/// Direction, burst type, and factor and index of a booking.
type Burst = (Direction, u32, [u32; 2]);

/// Three codes of uplink that share no leaf; by first leaf the second goes first, then the third.
const APART: [[u32; 2]; 3] = [[4, 3], [8, 1], [16, 3]];

/// Burst types in one timeslot of seat 7, whose beacon timeslots are 3 and 11: every two, each in both directions, the
/// second code sharing no leaf with the first, being the same, and covering it; and every three in uplink.
fn burst_types(put: Put) -> io::Result<()> {
    put("open 7 7 2 3 16 6".to_string())?;
    for timeslot in [5, 3, 11] {
        for (first_direction, first_type) in directions_and_types() {
            for (direction, burst_type) in directions_and_types() {
                for code in [[16, 5], [16, 3], [1, 1]] {
                    let first = (first_direction, first_type, [16, 3]);
                    in_turn(put, timeslot, &[first, (direction, burst_type, code)])?;
                }
            }
        }
    }
    for n in 0..27 {
        let types = [1 + n / 9, 1 + n / 3 % 3, 1 + n % 3];
        in_turn(put, 5, &[0, 1, 2].map(|place| (Direction::Up, types[place], APART[place])))?;
    }
    put("close 7".to_string())
}

/// Both directions, each with every burst type.
fn directions_and_types() -> impl Iterator<Item = (Direction, u32)> {
    [Direction::Up, Direction::Down]
        .into_iter()
        .flat_map(|direction| [1, 2, 3].map(|burst_type| (direction, burst_type)))
}

/// Seat 7 makes these bookings in a timeslot, lists what it holds, and cancels each of them, accepted or not.
fn in_turn(put: Put, timeslot: u32, bursts: &[Burst]) -> io::Result<()> {
    for (direction, burst_type, [factor, index]) in bursts {
        let direction = direction.word();
        put(format!("book 7 {timeslot} {direction} {burst_type} {factor} {index} 3 0 0"))?;
    }
    put("list 7".to_string())?;
    for (_, _, [factor, index]) in bursts {
        put(format!("cancel 7 {timeslot} {factor} {index}"))?;
    }
    Ok(())
}

/// Seat 8 asks for types 1 and 3 by turns in timeslots 1 to 14 of uplink, for two more than it may hold, and then for
/// type 2 in each of them.
fn types_1_and_3(put: Put) -> io::Result<()> {
    put("open 8 8 1 0 16 6".to_string())?;
    for (place, [factor, index]) in (0..).zip(APART) {
        for timeslot in 1..=14 {
            let burst_type = [1, 3][(timeslot + place) % 2];
            put(format!("book 8 {timeslot} up {burst_type} {factor} {index} {timeslot} 0 0"))?;
        }
    }
    (1..=14).try_for_each(|timeslot| put(format!("book 8 {timeslot} up 2 16 16 6 0 0")))?;
    put("list 8".to_string())?;
    put("close 8".to_string())
}

/// Users under the counts of seat 10, each long count with each short one. The seat is closed and opened anew for every
/// two of them.
fn users(put: Put) -> io::Result<()> {
    for long_count in [0, 4, 8, 16] {
        for short_count in [0, 3, 6] {
            let opened = open(put, Book::empty(), 10, [10, 1, 4, long_count, short_count])?;
            for record in records_of_users() {
                by_itself(put, &opened, 10, record)?;
            }
            put("close 10".to_string())?;
        }
    }
    Ok(())
}

/// Every burst type with every user and those just outside: uplink in the ordinary timeslot 5, and downlink in the
/// beacon timeslot 4, there with the code that is user 1's and with another.
fn records_of_users() -> Vec<Record> {
    let mut records = Vec::new();
    for (timeslot, direction, index) in
        [(5, Direction::Up, 3), (4, Direction::Down, 1), (4, Direction::Down, 3)]
    {
        for burst_type in [1, 2, 3] {
            for user in (0..=18).chain([LARGEST]) {
                records.push(Record {
                    timeslot,
                    direction,
                    burst_type,
                    factor: 16,
                    index,
                    user,
                    tfci_bits: 0,
                    tpc_bits: 0,
                });
            }
        }
    }
    records
}
