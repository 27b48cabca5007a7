//! Document 02, a smaller default: what a count of 0 in opening means, which users such a seat permits, and seats
//! beside it whose counts are given outright.

use super::users::{opened_with, users_of_type, OF_16, OF_3, OF_4, OF_6, OF_8};
use super::{figure, fill, lesson, plain, reply, Figure, CELL_0};
use crate::book::{Book, Record, Settings};
use crate::refusals::in_words;
use crate::rows::Rows;
use crate::timeslots::Direction::{Down, Up};

pub fn figures(rows: &Rows) -> Vec<Figure> {
    let mut figures = Vec::new();
    figures.extend(count_figures());
    figures.extend(same_figures());
    figures.extend(order_figures());
    figures.extend(beside_figures());
    figures.extend(opened_again_figures(rows));
    figures
}

/// `LONG and SHORT`.
fn both([long_count, short_count]: [u32; 2]) -> String {
    format!("{long_count} and {short_count}")
}

/// The counts that a seat keeps.
fn kept(book: &Book, seat: u32) -> String {
    in_words(book.settings(seat), |kept| both([kept.long_count, kept.short_count]))
}

/// Document 02: a count of 0 in opening "means 8 and 3"; users above 8, or above 3 of type 2, get 16 "on a default
/// seat". The long count and the short one are each by itself, and a count given outright is kept as it is.
fn count_figures() -> Vec<Figure> {
    let mut figures = Vec::new();
    for (long_count, short_count, wanted, of_long, of_short) in [
        (0, 0, "8 and 3", OF_8, OF_3),
        (0, 3, "8 and 3", OF_8, OF_3),
        (0, 6, "8 and 6", OF_8, OF_6),
        (4, 0, "4 and 3", OF_4, OF_3),
        (8, 0, "8 and 3", OF_8, OF_3),
        (16, 0, "16 and 3", OF_16, OF_3),
        (8, 3, "8 and 3", OF_8, OF_3),
        (16, 6, "16 and 6", OF_16, OF_6),
    ] {
        let book = opened_with(long_count, short_count);
        let name = format!("opened with {}", both([long_count, short_count]));
        figures.push(figure(&format!("{name}, counts kept"), kept(&book, 3), wanted));
        for (burst_type, wanted) in [(1, of_long), (2, of_short), (3, of_long)] {
            let name = format!("{name}, type {burst_type}, users 0 to 18 and largest");
            figures.push(figure(&name, users_of_type(&book, 3, burst_type), wanted));
        }
    }
    figures
}

/// A seat opened with these counts asks for users 1 to 16 of types 1 and 3 and users 1 to 6 of type 2, each type in a
/// timeslot of its own and each user with a code of its own: 38 bookings, for which there is room. Given are the counts
/// that it keeps and its list.
fn plan([long_count, short_count]: [u32; 2]) -> (String, Vec<String>) {
    let mut book = opened_with(long_count, short_count);
    for (burst_type, last) in [(1, 16), (2, 6), (3, 16)] {
        for user in 1..=last {
            // One that is refused is missing in the list.
            let _ = book.book(3, Record { burst_type, ..plain(burst_type, Up, user, user) });
        }
    }
    let listed = book.list(3).unwrap_or_default();
    (kept(&book, 3), listed.iter().map(Record::words).collect())
}

/// A seat opened with a 0 is as one opened with 8, or 3, in its place.
fn same_figures() -> Vec<Figure> {
    let pairs = [
        ([0, 0], [8, 3], true),
        ([0, 3], [8, 3], true),
        ([8, 0], [8, 3], true),
        ([0, 6], [8, 6], true),
        ([16, 0], [16, 3], true),
        ([4, 0], [4, 3], true),
        ([0, 0], [16, 6], false),
        ([0, 6], [16, 6], false),
        ([16, 0], [16, 6], false),
        ([0, 0], [4, 3], false),
    ];
    let figures = pairs.map(|(one, other, wanted)| {
        let name = format!("opened with {} as with {}", both(one), both(other));
        figure(&name, plan(one) == plan(other), wanted)
    });
    figures.into()
}

/// Where 16 stands among the other refusals of a booking, on a seat opened with 0 and 0 and on one opened with 16 and
/// 6: after 4 and 14, before 17, 18 and 19. In a beacon timeslot "users 9 and 10 are left unused", whom only the count
/// 16 permits.
fn order_figures() -> Vec<Figure> {
    let answers = |book: &Book, bookings: &[Record]| {
        let answers = bookings.iter().map(|booking| reply(book.clone().book(3, *booking)));
        answers.collect::<Vec<String>>().join(", ")
    };
    let taken = |[long_count, short_count]: [u32; 2]| {
        let mut book = opened_with(long_count, short_count);
        let first = reply(book.book(3, plain(2, Up, 3, 8)));
        let then = answers(&book, &[8, 9, 16, 17].map(|user| plain(2, Up, 3, user)));
        format!("{first}, {then}")
    };
    let in_beacon = |[long_count, short_count]: [u32; 2]| {
        let book = opened_with(long_count, short_count);
        answers(&book, &[2, 8, 9, 10, 11].map(|user| plain(0, Down, 3, user)))
    };
    let full = |[long_count, short_count]: [u32; 2]| {
        let mut book = opened_with(long_count, short_count);
        let (held, _) = fill(&mut book, 3, 40);
        let then = answers(&book, &[8, 9, 16, 17].map(|user| plain(9, Up, 9, user)));
        format!("{held}, {then}")
    };
    let closed = answers(&Book::empty(), &[8, 9, 17].map(|user| plain(2, Up, 3, user)));
    vec![
        figure(
            "opened with 0 and 0, user 8, then users 8, 9, 16, 17 on its code",
            taken([0, 0]),
            "ok, refused 17, refused 16, refused 16, refused 4",
        ),
        figure(
            "opened with 16 and 6, user 8, then users 8, 9, 16, 17 on its code",
            taken([16, 6]),
            "ok, refused 17, refused 17, refused 17, refused 4",
        ),
        figure(
            "opened with 0 and 0, beacon timeslot, users 2, 8, 9, 10, 11",
            in_beacon([0, 0]),
            "refused 18, ok, refused 16, refused 16, refused 16",
        ),
        figure(
            "opened with 16 and 6, beacon timeslot, users 2, 8, 9, 10, 11",
            in_beacon([16, 6]),
            "refused 18, ok, refused 18, refused 18, ok",
        ),
        figure(
            "opened with 0 and 0, a full seat holds, then users 8, 9, 16, 17",
            full([0, 0]),
            "40, refused 19, refused 16, refused 16, refused 4",
        ),
        figure(
            "opened with 16 and 6, a full seat holds, then users 8, 9, 16, 17",
            full([16, 6]),
            "40, refused 19, refused 19, refused 19, refused 4",
        ),
        figure("a closed seat, users 8, 9, 17", closed, "refused 14, refused 14, refused 4"),
    ]
}

/// The counts of a seat are its own, and it keeps them, whatever the seats beside it are opened with, before or after.
/// At the end the first is closed and opened with 16 and 6, the second with 0 and 0.
fn beside_figures() -> Vec<Figure> {
    let mut book = Book::empty();
    let open = |book: &mut Book, seat, [long_count, short_count]: [u32; 2]| {
        book.open(seat, Settings { long_count, short_count, ..CELL_0 })
            .expect("these seats are opened");
    };
    let counts = [[0, 0], [16, 6], [0, 6], [16, 0], [8, 3], [4, 0], [0, 0]];
    for (seat, counts) in (0..).zip(counts) {
        open(&mut book, seat, counts);
    }
    let all_kept = |book: &Book| (0..7).map(|seat| kept(book, seat)).collect::<Vec<_>>().join(", ");
    let permitting = |book: &Book, burst_type, user| {
        let booking = Record { burst_type, ..plain(2, Up, 3, user) };
        let permits = |seat: &u32| book.booking_refusals(*seat, &booking).is_ok();
        (0..7).filter(permits).map(|seat| seat.to_string()).collect::<Vec<_>>().join(" ")
    };
    let mut figures = vec![
        figure(
            "seven seats in one book, counts kept",
            all_kept(&book),
            "8 and 3, 16 and 6, 8 and 6, 16 and 3, 8 and 3, 4 and 3, 8 and 3",
        ),
        figure("those that permit user 7 of type 1", permitting(&book, 1, 7), "0 1 2 3 4 5 6"),
        figure("those that permit user 8 of type 1", permitting(&book, 1, 8), "0 1 2 3 4 6"),
        figure("those that permit user 9 of type 1", permitting(&book, 1, 9), "1 3"),
        figure("those that permit user 16 of type 3", permitting(&book, 3, 16), "1 3"),
        figure("those that permit user 17 of type 3", permitting(&book, 3, 17), ""),
        figure("those that permit user 3 of type 2", permitting(&book, 2, 3), "0 1 2 3 4 5 6"),
        figure("those that permit user 4 of type 2", permitting(&book, 2, 4), "1 2"),
        figure("those that permit user 6 of type 2", permitting(&book, 2, 6), "1 2"),
        figure("those that permit user 7 of type 2", permitting(&book, 2, 7), ""),
    ];
    for (seat, counts) in [(0, [16, 6]), (1, [0, 0])] {
        book.close(seat).expect("these seats are open");
        open(&mut book, seat, counts);
    }
    figures.extend([
        figure(
            "two of them closed and opened again, counts kept",
            all_kept(&book),
            "16 and 6, 8 and 3, 8 and 6, 16 and 3, 8 and 3, 4 and 3, 8 and 3",
        ),
        figure("those that then permit user 9 of type 1", permitting(&book, 1, 9), "0 3"),
        figure("those that then permit user 4 of type 2", permitting(&book, 2, 4), "0 2"),
    ]);
    figures
}

/// The words of the refusals, as docs/LESSONS.md has them.
const REFUSED_4: &str =
    "refused 4: user not permitted under the count (in a booking: outside 1..16 for types 1, 3; 1..6 for type 2)";
const REFUSED_16: &str = "refused 16: user not permitted under this seat's count";

/// docs/LESSONS.md: "LONG 0 stands for 8". An opening that is refused changes no count; closed and opened again with 16
/// and 6, the seat lets user 9 in, and opened with 0 and 0 once more it does not.
fn opened_again_figures(rows: &Rows) -> Vec<Figure> {
    lesson(
        rows,
        "opened again",
        &[
            ("open 3 0 1 0 0 0", "ok"),
            ("book 3 2 up 1 16 8 8 0 0", "ok"),
            ("book 3 2 up 1 16 9 9 0 0", REFUSED_16),
            ("book 3 2 up 3 16 9 9 0 0", REFUSED_16),
            ("book 3 2 up 3 16 16 16 0 0", REFUSED_16),
            ("book 3 2 up 3 16 16 17 0 0", REFUSED_4),
            ("book 3 2 up 3 16 16 8 0 0", "ok"),
            ("book 3 4 down 1 16 9 9 0 0", REFUSED_16),
            ("book 3 4 down 1 16 9 8 0 0", "ok"),
            ("list 3", "list 3 / 2 up 1 16 8 8 0 0 / 2 up 3 16 16 8 0 0 / 4 down 1 16 9 8 0 0"),
            ("open 3 0 1 0 16 6", "refused 15: seat open already"),
            ("book 3 2 up 1 16 9 9 0 0", REFUSED_16),
            ("close 3", "ok"),
            ("book 3 2 up 1 16 9 9 0 0", "refused 14: seat not open"),
            ("open 3 0 1 0 16 6", "ok"),
            ("list 3", "list 0"),
            ("book 3 2 up 1 16 9 9 0 0", "ok"),
            ("book 3 2 up 3 16 16 16 0 0", "ok"),
            ("book 3 2 up 3 16 1 17 0 0", REFUSED_4),
            ("book 3 4 down 1 16 9 9 0 0", "ok"),
            ("list 3", "list 3 / 2 up 1 16 9 9 0 0 / 2 up 3 16 16 16 0 0 / 4 down 1 16 9 9 0 0"),
            ("open 3 0 1 0 0 0", "refused 15: seat open already"),
            ("book 3 2 up 1 16 10 10 0 0", "ok"),
            ("close 3", "ok"),
            ("open 3 0 1 0 0 0", "ok"),
            ("book 3 2 up 1 16 9 9 0 0", REFUSED_16),
            ("book 3 2 up 1 16 9 8 0 0", "ok"),
            ("list 3", "list 1 / 2 up 1 16 9 8 0 0"),
        ],
    )
}
