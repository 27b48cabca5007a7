//! Document 02, the users that a count permits: in a question, in opening a seat and in a booking, their shifts and their
//! midambles.

use super::{figure, fill, lent_numbers, plain, reply, Figure, CELL_0};
use crate::book::{Book, Record, Settings};
use crate::midambles::{
    family, least_shift, one_chip, permitted_users, shift, whole_midamble, Family,
};
use crate::refusals::{in_words, Answer};
use crate::rows::Rows;
use crate::signal_card::{all_pairs, one_pair};
use crate::timeslots::Direction;

pub fn figures(rows: &Rows) -> Vec<Figure> {
    let mut figures = Vec::new();
    figures.extend(count_figures(rows));
    figures.extend(user_figures(rows));
    figures.extend(wide_shift_figures(rows));
    figures.extend(wide_midamble_figures(rows));
    figures.extend(opening_figures());
    figures.extend(seat_user_figures());
    figures.extend(wide_seat_figures());
    figures
}

/// What each of the numbers 0 to 18 and the largest gets, in this order: `ok`, or the number of the refusal.
pub fn each<T>(ask: impl Fn(u32) -> Answer<T>) -> String {
    let answers = (0..=18).chain([u32::MAX]).map(|number| match ask(number) {
        Ok(_) => "ok".to_string(),
        Err(refusal) => refusal.to_string(),
    });
    answers.collect::<Vec<String>>().join(" ")
}

/// Document 02: "Add the long count 4"; "3 admits 4 for types 1 and 3". User 1 is permitted under every count.
fn count_figures(rows: &Rows) -> Vec<Figure> {
    let long = "3 3 3 3 ok 3 3 3 ok 3 3 3 3 3 3 3 ok 3 3 3";
    let short = "3 3 3 ok 3 3 ok 3 3 3 3 3 3 3 3 3 3 3 3 3";
    let of_type = |burst_type| each(|count| one_chip(rows, 0, burst_type, count, 1, 1));
    let whole = |burst_type, count, user| {
        let answer = whole_midamble(rows, 0, burst_type, count, user, &mut [0; 512]);
        in_words(answer, |written| written.to_string())
    };
    vec![
        figure("counts 0 to 18 and largest, type 1", of_type(1), long),
        figure("counts 0 to 18 and largest, type 2", of_type(2), short),
        figure("counts 0 to 18 and largest, type 3", of_type(3), long),
        figure("whole midamble, count 4, type 2", whole(2, 4, 1), "refused 3"),
        figure("whole midamble, count 4, type 2, user 2", whole(2, 4, 2), "refused 3"),
        figure("whole midamble, count 4, type 1", whole(1, 4, 1), 512),
    ]
}

/// What users 0 to 18 and the largest get where the call names a count that permits these and nobody else.
fn only(users: &[u32]) -> String {
    each(|user| if users.contains(&user) { Ok(()) } else { Err(4) })
}

/// Document 02: "only odd users up to K', so users 1, 3, 5, 7"; 4 is "also given to an even user, or one above 7, under
/// count 4", "where the call names the count". Four calls name it. The other counts permit the users from 1 to them.
fn user_figures(rows: &Rows) -> Vec<Figure> {
    let mut figures = Vec::new();
    for (burst_type, count, users) in [
        (1, 4, vec![1, 3, 5, 7]),
        (3, 4, vec![1, 3, 5, 7]),
        (1, 8, (1..=8).collect()),
        (3, 8, (1..=8).collect()),
        (1, 16, (1..=16).collect()),
        (3, 16, (1..=16).collect()),
        (2, 3, (1..=3).collect()),
        (2, 6, (1..=6).collect()),
    ] {
        let chip = each(|user| one_chip(rows, 0, burst_type, count, user, 1));
        let chips = each(|user| whole_midamble(rows, 0, burst_type, count, user, &mut [0; 512]));
        let pair = each(|user| one_pair(rows, 0, burst_type, count, user, 1, 1));
        let pairs =
            each(|user| all_pairs(rows, 0, burst_type, count, user, 1, &mut lent_numbers(1024)));
        for (call, given) in [("chip", chip), ("midamble", chips), ("pair", pair), ("pairs", pairs)]
        {
            let name =
                format!("{call}, type {burst_type}, count {count}, users 0 to 18 and largest");
            figures.push(figure(&name, given, only(&users)));
        }
    }
    let chip = |user, i| in_words(one_chip(rows, 0, 1, 4, user, i), |power| power.to_string());
    let in_no_memory =
        |user| in_words(all_pairs(rows, 0, 3, 4, user, 0, &mut []), |_| String::new());
    figures.push(figure("count 4, user 2, chip 0", chip(2, 0), "refused 4"));
    figures.push(figure("count 4, user 7, chip 0", chip(7, 0), "refused 10"));
    figures.push(figure("count 4, user 2, level 0 in no memory", in_no_memory(2), "refused 4"));
    figures.push(figure("count 4, user 7, level 0 in no memory", in_no_memory(7), "refused 11"));
    figures
}

/// How far apart the shifts of two users lie, round the period.
fn distance(family: &Family, one: u32, other: u32) -> usize {
    let apart = shift(family, one as usize).abs_diff(shift(family, other as usize));
    apart.min(family.period - apart)
}

/// The least distance of two users that the count permits.
fn least_distance(burst_type: u32, count: u32) -> usize {
    let users = permitted_users(count);
    let pairs = users.iter().flat_map(|one| users.iter().map(move |other| (*one, *other)));
    pairs
        .filter(|(one, other)| one != other)
        .map(|(one, other)| distance(family(burst_type), one, other))
        .min()
        .unwrap_or(0)
}

/// Document 02: "Shifts don't move". Users 1, 3, 5, 7 have (8 - k)57, so they lie 114 apart, and 57 + 456 - 399 is 114
/// too. Under 8 neighbours are a step apart, under 16 a half step; the same for 3 and 6.
fn wide_shift_figures(rows: &Rows) -> Vec<Figure> {
    let shifts = [1, 3, 5, 7].map(|user| match least_shift(rows, 1, user) {
        Some(shift) => shift.to_string(),
        None => "none".to_string(),
    });
    vec![
        figure("shifts, count 4, by search", shifts.join(", "), "399, 285, 171, 57"),
        figure("least distance of two users, count 4", least_distance(1, 4), 114),
        figure("least distance of two users, count 8", least_distance(1, 8), 57),
        figure("least distance of two users, count 16", least_distance(1, 16), 28),
        figure("least distance of two users, count 3", least_distance(2, 3), 64),
        figure("least distance of two users, count 6", least_distance(2, 6), 32),
    ]
}

/// A whole long midamble.
fn long_midamble(rows: &Rows, [cell, burst_type, count, user]: [u32; 4]) -> Answer<[u8; 512]> {
    let mut lent = [0; 512];
    whole_midamble(rows, cell, burst_type, count, user, &mut lent)?;
    Ok(lent)
}

/// How many midambles of users 1, 3, 5, 7 under the count 4 are answered with the chips that they have under another
/// count, in every cell and for both types.
fn as_under(rows: &Rows, count: u32) -> usize {
    let cells = (0..=127).flat_map(|cell| [[cell, 1], [cell, 3]]);
    cells
        .flat_map(|[cell, burst_type]| [1, 3, 5, 7].map(|user| (cell, burst_type, user)))
        .filter(|&(cell, burst_type, user)| {
            let of = |count| long_midamble(rows, [cell, burst_type, count, user]);
            of(4).is_ok() && of(4) == of(count)
        })
        .count()
}

/// The chips of a user are the same under every count that permits it. By the shifts 399, 285, 171 and 57, elements 457
/// to 464 are the chips of users 1, 3, 5, 7 from 58, 172, 286 and 400 on: the first eight again, which document 01's
/// figures have.
fn wide_midamble_figures(rows: &Rows) -> Vec<Figure> {
    let eight_chips = |user, from: usize| {
        in_words(long_midamble(rows, [0, 1, 4, user]), |chips| {
            chips[from - 1..from + 7].iter().map(u8::to_string).collect::<Vec<String>>().join(",")
        })
    };
    vec![
        figure("user 1 of 4, chips 58 to 65", eight_chips(1, 58), "1,0,1,2,1,2,1,0"),
        figure("user 3 of 4, chips 172 to 179", eight_chips(3, 172), "1,0,1,2,1,2,1,0"),
        figure("user 5 of 4, chips 286 to 293", eight_chips(5, 286), "1,0,1,2,1,2,1,0"),
        figure("user 7 of 4, chips 400 to 407", eight_chips(7, 400), "1,0,1,2,1,2,1,0"),
        figure("midambles of 4 that are those of 8", as_under(rows, 8), 1024),
        figure("midambles of 4 that are those of 16", as_under(rows, 16), 1024),
    ]
}

/// Refusal 3 in opening, where "0 is allowed too" and "means 8 and 3".
fn opening_figures() -> Vec<Figure> {
    let counts = |long_count, short_count| {
        let mut book = Book::empty();
        book.open(3, Settings { long_count, short_count, ..CELL_0 })?;
        book.settings(3).map(|kept| format!("{} and {}", kept.long_count, kept.short_count))
    };
    let kept = |long_count, short_count| in_words(counts(long_count, short_count), |kept| kept);
    vec![
        figure(
            "opening with long counts 0 to 18 and largest",
            each(|long_count| counts(long_count, 0)),
            "ok 3 3 3 ok 3 3 3 ok 3 3 3 3 3 3 3 ok 3 3 3",
        ),
        figure(
            "opening with short counts 0 to 18 and largest",
            each(|short_count| counts(4, short_count)),
            "ok 3 3 ok 3 3 ok 3 3 3 3 3 3 3 3 3 3 3 3 3",
        ),
        figure("a seat opened with 4 and 3", kept(4, 3), "4 and 3"),
        figure("a seat opened with 4 and 0", kept(4, 0), "4 and 3"),
        figure("a seat opened with 0 and 3", kept(0, 3), "8 and 3"),
        figure("a seat opened with 0 and 4", kept(0, 4), "refused 3"),
    ]
}

/// A book with seat 3 open with these counts, and its beacon timeslot 0.
pub fn opened_with(long_count: u32, short_count: u32) -> Book {
    let mut book = Book::empty();
    book.open(3, Settings { long_count, short_count, ..CELL_0 }).expect("this seat is opened");
    book
}

/// What a seat answers to a booking of the type by each of the users 0 to 18 and the largest, each made by itself in
/// timeslot 2.
pub fn users_of_type(book: &Book, seat: u32, burst_type: u32) -> String {
    let booking = |user| Record { burst_type, ..plain(2, Direction::Up, 3, user) };
    each(|user| book.clone().book(seat, booking(user)))
}

// What these users get from a seat of each count: 16 where it does not permit them, 4 where no seat would.
pub const OF_4: &str = "4 ok 16 ok 16 ok 16 ok 16 16 16 16 16 16 16 16 16 4 4 4";
pub const OF_8: &str = "4 ok ok ok ok ok ok ok ok 16 16 16 16 16 16 16 16 4 4 4";
pub const OF_16: &str = "4 ok ok ok ok ok ok ok ok ok ok ok ok ok ok ok ok 4 4 4";
pub const OF_3: &str = "4 ok ok ok 16 16 16 4 4 4 4 4 4 4 4 4 4 4 4 4";
pub const OF_6: &str = "4 ok ok ok ok ok ok 4 4 4 4 4 4 4 4 4 4 4 4 4";

/// Document 02: 16 is "also given to an even user, or one above 7, under count 4", "the seat's own count included": the
/// long one for types 1 and 3, the short one for type 2. Refusal 4 of a booking, which names no count, stays.
fn seat_user_figures() -> Vec<Figure> {
    let wanted = [
        ([4, 3, 1], OF_4),
        ([4, 6, 3], OF_4),
        ([4, 3, 2], OF_3),
        ([4, 6, 2], OF_6),
        ([4, 0, 2], OF_3),
        ([8, 3, 1], OF_8),
        ([8, 6, 3], OF_8),
        ([8, 3, 2], OF_3),
        ([16, 3, 1], OF_16),
        ([16, 6, 3], OF_16),
        ([0, 3, 1], OF_8),
        ([0, 0, 2], OF_3),
    ];
    let figures = wanted.map(|(numbers, wanted)| {
        let [long_count, short_count, burst_type] = numbers;
        let name = format!(
            "seat of {long_count} and {short_count}, type {burst_type}, users 0 to 18 and largest"
        );
        let book = opened_with(long_count, short_count);
        figure(&name, users_of_type(&book, 3, burst_type), wanted)
    });
    figures.into()
}

/// Where 16 stands among the other refusals of a booking, on a seat of the long count 4.
fn wide_seat_figures() -> Vec<Figure> {
    use Direction::{Down, Up};
    let in_turn = |bookings: &[Record]| {
        let mut book = opened_with(4, 0);
        let answers = bookings.iter().map(|booking| reply(book.book(3, *booking)));
        answers.collect::<Vec<String>>().join(", ")
    };
    let mut full = opened_with(4, 0);
    let (held, _) = fill(&mut full, 3, 40);
    let next = |user| reply(full.clone().book(3, plain(9, Up, 9, user)));
    let closed = |user| reply(Book::empty().book(3, plain(2, Up, 3, user)));
    vec![
        figure(
            "seat of 4, users 1, 3, 5, 7, then 2, 9 and 17",
            in_turn(&[
                plain(2, Up, 1, 1),
                plain(2, Up, 2, 3),
                plain(2, Up, 3, 5),
                plain(2, Up, 4, 7),
                plain(2, Up, 5, 2),
                plain(2, Up, 6, 9),
                plain(2, Up, 7, 17),
            ]),
            "ok, ok, ok, ok, refused 16, refused 16, refused 4",
        ),
        figure(
            "seat of 4, a code that is taken, users 6 and 7",
            in_turn(&[plain(2, Up, 3, 5), plain(2, Up, 3, 6), plain(2, Up, 3, 7)]),
            "ok, refused 16, refused 17",
        ),
        figure(
            "seat of 4, beacon timeslot, users 2, 9, 10, 1, 3 on user 1's code, 1 on it, 3, 7",
            in_turn(&[
                plain(0, Down, 3, 2),
                plain(0, Down, 3, 9),
                plain(0, Down, 3, 10),
                plain(0, Down, 3, 1),
                plain(0, Down, 1, 3),
                plain(0, Down, 1, 1),
                plain(0, Down, 3, 3),
                plain(0, Down, 4, 7),
            ]),
            "refused 16, refused 16, refused 16, refused 18, refused 18, ok, ok, ok",
        ),
        figure("a full seat of 4 holds", held, 40),
        figure(
            "a full seat of 4, users 4, 5",
            [4, 5].map(next).join(", "),
            "refused 16, refused 19",
        ),
        figure(
            "a closed seat, users 2, 17",
            [2, 17].map(closed).join(", "),
            "refused 14, refused 4",
        ),
    ]
}
