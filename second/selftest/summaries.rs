//! Document 02, free codes at a glance: the leaves that a seat's bookings cover, their direction and their number,
//! after open, book, cancel and close; what another seat holds; and what is refused.

use super::users::each;
use super::{figure, lesson, plain, Figure, CELL_0};
use crate::book::{codes, Book, Record, SEATS};
use crate::dice::Dice;
use crate::refusals::in_words;
use crate::rows::Rows;
use crate::summaries::Summary;
use crate::timeslots::Direction::{self, Down, Up};

pub fn figures(rows: &Rows) -> Vec<Figure> {
    let mut figures = Vec::new();
    figures.extend(code_figures());
    figures.extend(leaf_figures());
    figures.extend(filled_figures());
    figures.extend(free_code_figures());
    figures.extend(order_figures());
    figures.extend(booked_figures(rows));
    figures.extend(direction_figures(rows));
    figures.extend(seat_figures(rows));
    figures.extend(refused_figures(rows));
    figures
}

/// A book with seat 3 open, whose beacon timeslot is 0.
fn opened() -> Book {
    let mut book = Book::empty();
    book.open(3, CELL_0).expect("this seat is opened");
    book
}

/// A booking of type 1 and user 3 in timeslot 2.
fn of_code(direction: Direction, factor: u32, index: u32) -> Record {
    Record { factor, ..plain(2, direction, index, 3) }
}

/// Seat 3's summary of timeslot 2: `LEAVES up|down|none N`.
fn words(book: &Book) -> String {
    in_words(book.summary(3, 2), |summary| summary.words())
}

/// A book in which this is booked alone.
fn alone(direction: Direction, factor: u32, index: u32) -> Book {
    let mut book = opened();
    // One that is refused leaves the book as it was, and the summary shows it.
    let _ = book.book(3, of_code(direction, factor, index));
    book
}

/// Document 01: "Code (Q, k) covers the 16/Q leaves from (k - 1)16/Q." Document 02: a bit is "set where a booking
/// covers it"; docs/LESSONS.md: "leaf 0 first".
fn code_figures() -> Vec<Figure> {
    let mut figures =
        vec![figure("summary of an empty timeslot", words(&opened()), "0000000000000000 none 0")];
    for (direction, factor, index, wanted) in [
        (Up, 1, 1, "1111111111111111 up 1"),
        (Down, 1, 1, "1111111111111111 down 1"),
        (Up, 2, 1, "1111111100000000 up 1"),
        (Up, 2, 2, "0000000011111111 up 1"),
        (Up, 4, 1, "1111000000000000 up 1"),
        (Up, 4, 2, "0000111100000000 up 1"),
        (Up, 4, 3, "0000000011110000 up 1"),
        (Up, 4, 4, "0000000000001111 up 1"),
        (Up, 8, 1, "1100000000000000 up 1"),
        (Up, 8, 3, "0000110000000000 up 1"),
        (Up, 8, 8, "0000000000000011 up 1"),
        (Up, 16, 1, "1000000000000000 up 1"),
        (Down, 16, 1, "1000000000000000 down 1"),
        (Up, 16, 2, "0100000000000000 up 1"),
        (Down, 16, 7, "0000001000000000 down 1"),
        (Up, 16, 16, "0000000000000001 up 1"),
        (Down, 16, 16, "0000000000000001 down 1"),
    ] {
        let name = format!("summary with code ({factor}, {index}) {}", direction.word());
        figures.push(figure(&name, words(&alone(direction, factor, index)), wanted));
    }
    figures
}

/// The leaves that are set, counted from 0, whatever the words of a summary are.
fn leaves(summary: Summary) -> String {
    let set = (0..16).filter(|leaf| summary.leaves[*leaf]);
    set.map(|leaf| leaf.to_string()).collect::<Vec<String>>().join(" ")
}

fn leaf_figures() -> Vec<Figure> {
    let of = |factor, index| in_words(alone(Up, factor, index).summary(3, 2), leaves);
    vec![
        figure("leaves of code (16, 1)", of(16, 1), "0"),
        figure("leaves of code (16, 16)", of(16, 16), "15"),
        figure("leaves of code (8, 2)", of(8, 2), "2 3"),
        figure("leaves of code (4, 2)", of(4, 2), "4 5 6 7"),
        figure("leaves of code (2, 2)", of(2, 2), "8 9 10 11 12 13 14 15"),
        figure("leaves of code (1, 1)", of(1, 1), "0 1 2 3 4 5 6 7 8 9 10 11 12 13 14 15"),
    ]
}

/// A timeslot that is filled by all codes of a factor, from the first to the last or the other way round, and emptied
/// from the first to the last.
fn filled_figures() -> Vec<Figure> {
    let filled = |factor: u32, indices: &[u32]| {
        let mut book = opened();
        let mut summaries = Vec::new();
        for index in indices {
            // Where it is refused, the summary shows it.
            let _ = book.book(3, of_code(Up, factor, *index));
            summaries.push(words(&book));
        }
        for index in 1..=factor {
            let _ = book.cancel(3, 2, factor, index);
            summaries.push(words(&book));
        }
        summaries.join(", ")
    };
    let leaf_by_leaf = |most: u32| {
        let mut book = opened();
        for index in 1..=most {
            let _ = book.book(3, of_code(Down, 16, index));
        }
        words(&book)
    };
    vec![
        figure(
            "summaries of a timeslot filled by the codes of factor 2",
            filled(2, &[1, 2]),
            "1111111100000000 up 1, 1111111111111111 up 2, \
             0000000011111111 up 1, 0000000000000000 none 0",
        ),
        figure(
            "summaries of a timeslot filled by the codes of factor 4",
            filled(4, &[1, 2, 3, 4]),
            "1111000000000000 up 1, 1111111100000000 up 2, \
             1111111111110000 up 3, 1111111111111111 up 4, \
             0000111111111111 up 3, 0000000011111111 up 2, \
             0000000000001111 up 1, 0000000000000000 none 0",
        ),
        figure(
            "summaries of a timeslot filled by the codes of factor 8, the last one first",
            filled(8, &[8, 7, 6, 5, 4, 3, 2, 1]),
            "0000000000000011 up 1, 0000000000001111 up 2, \
             0000000000111111 up 3, 0000000011111111 up 4, \
             0000001111111111 up 5, 0000111111111111 up 6, \
             0011111111111111 up 7, 1111111111111111 up 8, \
             0011111111111111 up 7, 0000111111111111 up 6, \
             0000001111111111 up 5, 0000000011111111 up 4, \
             0000000000111111 up 3, 0000000000001111 up 2, \
             0000000000000011 up 1, 0000000000000000 none 0",
        ),
        figure("summary with 9 codes of factor 16", leaf_by_leaf(9), "1111111110000000 down 9"),
        figure("summary with 15 codes of factor 16", leaf_by_leaf(15), "1111111111111110 down 15"),
        figure("summary with 16 codes of factor 16", leaf_by_leaf(16), "1111111111111111 down 16"),
    ]
}

/// docs/LESSONS.md: "Code (FACTOR, INDEX) is free where its 16/FACTOR digits from (INDEX - 1)16/FACTOR on are all 0."
fn free(summary: &Summary, factor: u32, index: u32) -> bool {
    let digits = 16 / factor as usize;
    let first = (index as usize - 1) * digits;
    summary.words().as_bytes()[first..first + digits].iter().all(|digit| *digit == b'0')
}

/// Which codes are free, as the bookings themselves say it: 400 bookings and cancels by the dice in timeslots 1 to 3,
/// all in uplink and of types 1 and 3, so that 17 speaks of the code alone. After each, the 31 codes of the three
/// timeslots are free exactly where a booking is not refused 17, and the numbers of all timeslots make up the list.
fn free_code_figures() -> Vec<Figure> {
    let mut dice = Dice::new(16);
    let mut book = opened();
    let (mut agreeing, mut made_up, mut found_free) = (0, 0, 0);
    for _ in 0..400 {
        let timeslot = dice.between(1, 3);
        let factor = dice.pick(&[1, 2, 4, 8, 8, 16, 16, 16, 16]);
        let index = dice.between(1, factor);
        let record =
            Record { timeslot, burst_type: dice.pick(&[1, 3]), ..of_code(Up, factor, index) };
        if dice.one_in(2) || book.book(3, record).is_err() {
            // Where there is none, the book stays as it was.
            let _ = book.cancel(3, timeslot, factor, index);
        }
        for timeslot in 1..=3 {
            let Ok(summary) = book.summary(3, timeslot) else {
                continue;
            };
            for (factor, index) in codes() {
                let wanted = Record { timeslot, ..of_code(Up, factor, index) };
                let refused = book.booking_refusals(3, &wanted) == Err(17);
                let free = free(&summary, factor, index);
                agreeing += usize::from(free != refused);
                found_free += usize::from(free);
            }
        }
        let counts = (0..=14).filter_map(|timeslot| book.summary(3, timeslot).ok());
        let listed = book.list(3).map_or(0, |listed| listed.len());
        made_up += usize::from(counts.map(|summary| summary.count).sum::<usize>() == listed);
    }
    vec![
        figure("codes that are free where a booking is not refused 17", agreeing, 37200),
        figure("free codes and others among them", (1..37200).contains(&found_free), true),
        figure("lists that the numbers of all timeslots make up", made_up, 400),
    ]
}

/// "Refusals: 5, 12, 13, 14 as they stand", the lowest first. All seats but 4 are open.
fn order_figures() -> Vec<Figure> {
    let mut book = Book::empty();
    for seat in (0..SEATS).filter(|seat| *seat != 4) {
        book.open(seat, CELL_0).expect("these seats are opened");
    }
    let mut damaged = book.clone();
    damaged.damaged = true;
    let seats = |book: &Book, timeslot| each(|seat| book.summary(seat, timeslot));
    let timeslots = |book: &Book, seat| each(|timeslot| book.summary(seat, timeslot));
    let all_5 = "5 5 5 5 5 5 5 5 5 5 5 5 5 5 5 5 5 5 5 5";
    vec![
        figure(
            "summaries of seats 0 to 18 and largest, timeslot 14",
            seats(&book, 14),
            "ok ok ok ok 14 ok ok ok ok ok ok ok ok ok ok ok 13 13 13 13",
        ),
        figure("summaries of seats 0 to 18 and largest, timeslot 15", seats(&book, 15), all_5),
        figure(
            "summaries of timeslots 0 to 18 and largest, seat 15",
            timeslots(&book, 15),
            "ok ok ok ok ok ok ok ok ok ok ok ok ok ok ok 5 5 5 5 5",
        ),
        figure(
            "summaries of timeslots 0 to 18 and largest, seat 4",
            timeslots(&book, 4),
            "14 14 14 14 14 14 14 14 14 14 14 14 14 14 14 5 5 5 5 5",
        ),
        figure(
            "summaries of timeslots 0 to 18 and largest, seat 16",
            timeslots(&book, 16),
            "13 13 13 13 13 13 13 13 13 13 13 13 13 13 13 5 5 5 5 5",
        ),
        figure(
            "summaries of a damaged book, seats 0 to 18 and largest, timeslot 14",
            seats(&damaged, 14),
            "12 12 12 12 12 12 12 12 12 12 12 12 12 12 12 12 12 12 12 12",
        ),
        figure(
            "summaries of a damaged book, seats 0 to 18 and largest, timeslot 15",
            seats(&damaged, 15),
            all_5,
        ),
        figure(
            "summaries of a damaged book, timeslots 0 to 18 and largest, seat 16",
            timeslots(&damaged, 16),
            "12 12 12 12 12 12 12 12 12 12 12 12 12 12 12 5 5 5 5 5",
        ),
    ]
}

/// The leaves of several bookings together, types 1 and 3 beside each other, and their number; what is cancelled goes,
/// and what is refused changes nothing. The timeslots beside it stay empty.
fn booked_figures(rows: &Rows) -> Vec<Figure> {
    lesson(
        rows,
        "bookings and cancels",
        &[
            ("open 3 0 1 0 0 0", "ok"),
            ("summary 3 2", "summary 0000000000000000 none 0"),
            ("book 3 2 up 1 4 2 3 0 0", "ok"),
            ("summary 3 2", "summary 0000111100000000 up 1"),
            ("book 3 2 up 3 16 1 4 0 0", "ok"),
            ("summary 3 2", "summary 1000111100000000 up 2"),
            ("book 3 2 up 1 2 2 5 32 2", "ok"),
            ("summary 3 2", "summary 1000111111111111 up 3"),
            ("summary 3 1", "summary 0000000000000000 none 0"),
            ("summary 3 3", "summary 0000000000000000 none 0"),
            ("book 3 2 up 1 8 1 3 0 0", "refused 17: clash inside this seat's own cell"),
            ("summary 3 2", "summary 1000111111111111 up 3"),
            ("book 3 2 up 1 16 2 3 0 0", "ok"),
            ("summary 3 2", "summary 1100111111111111 up 4"),
            ("cancel 3 2 4 2", "ok"),
            ("summary 3 2", "summary 1100000011111111 up 3"),
            ("cancel 3 2 4 2", "refused 21: no such booking"),
            ("cancel 3 2 4 3", "refused 21: no such booking"),
            ("summary 3 2", "summary 1100000011111111 up 3"),
            ("cancel 3 2 16 1", "ok"),
            ("summary 3 2", "summary 0100000011111111 up 2"),
            ("cancel 3 2 2 2", "ok"),
            ("summary 3 2", "summary 0100000000000000 up 1"),
            ("cancel 3 2 16 2", "ok"),
            ("summary 3 2", "summary 0000000000000000 none 0"),
        ],
    )
}

/// The direction goes with the last booking of the timeslot, and comes back as the next one's, of whatever type.
fn direction_figures(rows: &Rows) -> Vec<Figure> {
    lesson(
        rows,
        "directions",
        &[
            ("open 3 0 1 0 0 0", "ok"),
            ("book 3 2 up 1 16 3 3 0 0", "ok"),
            ("book 3 4 down 1 16 3 3 0 0", "ok"),
            ("summary 3 2", "summary 0010000000000000 up 1"),
            ("summary 3 4", "summary 0010000000000000 down 1"),
            ("book 3 2 down 1 16 4 3 0 0", "refused 17: clash inside this seat's own cell"),
            ("summary 3 2", "summary 0010000000000000 up 1"),
            ("cancel 3 2 16 3", "ok"),
            ("summary 3 2", "summary 0000000000000000 none 0"),
            ("book 3 2 down 1 16 4 3 0 0", "ok"),
            ("book 3 2 down 1 16 3 3 0 0", "ok"),
            ("summary 3 2", "summary 0011000000000000 down 2"),
            ("cancel 3 2 16 4", "ok"),
            ("summary 3 2", "summary 0010000000000000 down 1"),
            ("cancel 3 2 16 3", "ok"),
            ("summary 3 2", "summary 0000000000000000 none 0"),
            ("book 3 2 up 2 8 2 3 0 0", "ok"),
            ("summary 3 2", "summary 0011000000000000 up 1"),
            ("cancel 3 2 8 2", "ok"),
            ("book 3 2 down 2 1 1 3 0 0", "ok"),
            ("summary 3 2", "summary 1111111111111111 down 1"),
            ("summary 3 4", "summary 0010000000000000 down 1"),
        ],
    )
}

/// "The screen asks one seat at a time, and sees nothing of another"; a close removes the seat's bookings, and opened
/// again it has none.
fn seat_figures(rows: &Rows) -> Vec<Figure> {
    lesson(
        rows,
        "two seats",
        &[
            ("open 3 0 1 0 0 0", "ok"),
            ("open 4 0 1 0 0 0", "ok"),
            ("book 3 2 up 1 4 1 3 0 0", "ok"),
            ("summary 4 2", "summary 0000000000000000 none 0"),
            ("book 4 2 down 2 16 16 3 0 0", "ok"),
            ("book 4 2 down 2 16 1 3 0 0", "ok"),
            ("book 4 3 down 2 1 1 3 0 0", "ok"),
            ("summary 3 2", "summary 1111000000000000 up 1"),
            ("summary 4 2", "summary 1000000000000001 down 2"),
            ("summary 3 3", "summary 0000000000000000 none 0"),
            ("summary 4 3", "summary 1111111111111111 down 1"),
            ("close 3", "ok"),
            ("summary 3 2", "refused 14: seat not open"),
            ("summary 4 2", "summary 1000000000000001 down 2"),
            ("open 3 0 1 0 0 0", "ok"),
            ("summary 3 2", "summary 0000000000000000 none 0"),
            ("book 3 2 down 1 16 16 3 0 0", "ok"),
            ("summary 3 2", "summary 0000000000000001 down 1"),
            ("cancel 4 2 16 16", "ok"),
            ("summary 3 2", "summary 0000000000000001 down 1"),
            ("summary 4 2", "summary 1000000000000000 down 1"),
            ("close 4", "ok"),
            ("summary 3 2", "summary 0000000000000001 down 1"),
            ("open 4 0 1 0 0 0", "ok"),
            ("summary 4 2", "summary 0000000000000000 none 0"),
            ("summary 4 3", "summary 0000000000000000 none 0"),
        ],
    )
}

/// Seat 3 of document 01's figures, and the words of what is refused.
fn refused_figures(rows: &Rows) -> Vec<Figure> {
    lesson(
        rows,
        "seat 3",
        &[
            ("open 3 0 1 0 0 0", "ok"),
            ("book 3 2 down 1 16 3 4 0 0", "ok"),
            ("book 3 0 down 1 16 1 1 0 0", "ok"),
            ("summary 3 0", "summary 1000000000000000 down 1"),
            ("summary 3 1", "summary 0000000000000000 none 0"),
            ("summary 3 2", "summary 0010000000000000 down 1"),
            ("summary 3 14", "summary 0000000000000000 none 0"),
            ("summary 3 15", "refused 5: timeslot above 14"),
            ("summary 3 4294967295", "refused 5: timeslot above 14"),
            ("summary 4 2", "refused 14: seat not open"),
            ("summary 15 14", "refused 14: seat not open"),
            ("summary 16 14", "refused 13: seat above 15"),
            ("summary 4294967295 0", "refused 13: seat above 15"),
            ("summary 16 15", "refused 5: timeslot above 14"),
            ("summary 4 15", "refused 5: timeslot above 14"),
        ],
    )
}
