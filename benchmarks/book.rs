//! The class book over C: the caller's 6,432 bytes go in by value, all of them are tested, and the new book comes back
//! by value.

use crate::dice::{same, Dice};
use crate::limits;
use crate::plain::book as plain;
use crate::plain::book::Way;
use crate::table::Line;
use library::{MqBook, MqBookAnswer, BOOK_BYTES};
use std::hint::black_box;

/// Bytes of a seat: 7, 40 places of 8, 15 timeslots of 5.
const SEAT_BYTES: usize = BOOK_BYTES / 16;
const SLOTS_AT: usize = 7 + 40 * 8;

/// What was compared, and how often each refusal came.
#[derive(Default)]
struct Tally {
    calls: u32,
    seen: [u32; 22],
}

impl Tally {
    fn both(&mut self, what: &str, library: MqBookAnswer, plain: MqBookAnswer) -> MqBook {
        same(library.refusal, plain.refusal, || what.to_string());
        if library.book != plain.book {
            same("a book", "another book", || what.to_string());
        }
        self.calls += 1;
        self.seen[library.refusal as usize] += 1;
        library.book
    }

    fn list(&mut self, b: MqBook, seat: u32, length: usize) {
        let (mut ours, mut theirs) = ([0xA5; 400], [0xA5; 400]);
        let r = library::list(b, seat, &mut ours[..length]);
        let s = plain::list(b, seat, &mut theirs[..length]);
        same((r, ours), (s, theirs), || format!("list {seat}, {length} bytes lent"));
        self.calls += 1;
        self.seen[r.refusal as usize] += 1;
    }

    fn summary(&mut self, b: MqBook, seat: u32, timeslot: u32) {
        let (r, s) = (library::summary(b, seat, timeslot), plain::summary(b, seat, timeslot));
        same(r, s, || format!("summary {seat} {timeslot}"));
        self.calls += 1;
        self.seen[r.refusal as usize] += 1;
    }

    /// Every timeslot of a seat.
    fn summaries(&mut self, b: MqBook, seat: u32) {
        for timeslot in 0..16 {
            self.summary(b, seat, timeslot);
        }
    }
}

/// Timeslot, direction, burst type, factor, index, user, TFCI bits, TPC bits: mostly allowed.
fn request(dice: &mut Dice) -> [u32; 8] {
    let direction = dice.one_of(&[0, 0, 0, 1]);
    let factor = dice.one_of(if direction == 0 {
        &[16, 16, 16, 16, 16, 16, 8, 4, 2, 1]
    } else {
        &[16, 16, 16, 1]
    });
    let burst = dice.one_of(&[1, 1, 1, 1, 2, 3]);
    let mut x = [
        dice.below(15),
        direction,
        burst,
        factor,
        1 + dice.below(factor),
        1 + dice.below(if burst == 2 { 6 } else { 16 }),
        dice.one_of(&[0, 4, 8, 16, 32]),
        0,
    ];
    if dice.below(12) == 0 {
        x[dice.below(8) as usize] = dice.one_of(&[0, 1, 2, 3, 7, 15, 16, 17, 33, u32::MAX]);
    }
    x
}

/// A call on both sides, and the book that it leaves.
fn call(tally: &mut Tally, dice: &mut Dice, b: MqBook) -> MqBook {
    // Three seats get more than others, so that they fill.
    let seat = if dice.below(3) == 0 { dice.below(17) } else { dice.below(3) };
    match dice.below(200) {
        0..=9 => {
            let [cell, sync, k] = [dice.below(130), dice.one_of(&[1, 1, 2, 2, 3]), dice.below(8)];
            let [long, short] = [dice.one_of(&[0, 4, 8, 16, 16, 7]), dice.one_of(&[0, 3, 6, 6, 5])];
            let what = format!("open {seat} {cell} {sync} {k} {long} {short}");
            tally.both(
                &what,
                library::open(b, seat, cell, sync, k, long, short),
                plain::open(b, seat, cell, sync, k, long, short),
            )
        }
        10..=19 => {
            let [timeslot, _, _, factor, index, ..] = request(dice);
            let what = format!("cancel {seat} {timeslot} {factor} {index}");
            tally.both(
                &what,
                library::cancel(b, seat, timeslot, factor, index),
                plain::cancel(b, seat, timeslot, factor, index),
            )
        }
        // A booking that is there, if the seat has one.
        20..=29 => {
            let place = seat as usize % 16 * SEAT_BYTES + 7 + 8 * dice.below(10) as usize;
            let [timeslot, factor, index] =
                [b.0[place] as u32, b.0[place + 3] as u32, b.0[place + 4] as u32];
            let what = format!("cancel {seat} {timeslot} {factor} {index}");
            tally.both(
                &what,
                library::cancel(b, seat, timeslot, factor, index),
                plain::cancel(b, seat, timeslot, factor, index),
            )
        }
        30 => tally.both(&format!("close {seat}"), library::close(b, seat), plain::close(b, seat)),
        31..=40 => {
            tally.list(b, seat, dice.one_of(&[0, 319, 320, 321, 400]));
            b
        }
        41..=50 => {
            tally.summary(b, seat, dice.one_of(&[0, 1, 2, 7, 13, 14, 15, u32::MAX]));
            b
        }
        51..=53 => {
            tally.summaries(b, seat);
            b
        }
        _ => {
            let x = request(dice);
            tally.both(
                &format!("book {seat} {x:?}"),
                library::book(b, seat, x),
                plain::book(b, seat, x),
            )
        }
    }
}

/// What the bookings of a seat say of its timeslots, put down again.
fn sum_again(seat: &mut [u8]) {
    let (bookings, slots) = seat.split_at_mut(SLOTS_AT);
    let [neither, up, down] = [Way::Neither, Way::Up, Way::Down].map(|way| way as u8);
    slots.chunks_exact_mut(5).for_each(|slot| slot.copy_from_slice(&[0, 0, neither, 0, 0]));
    for x in bookings[7..].chunks_exact(8).take(bookings[6] as usize) {
        let [timeslot, direction, burst, factor, index] = [x[0], x[1], x[2], x[3], x[4]];
        if timeslot < 15 && matches!(factor, 1 | 2 | 4 | 8 | 16) && (1..=factor).contains(&index) {
            let leaves = 16 / factor as u32;
            let mask = ((1u32 << leaves) - 1) << ((index as u32 - 1) * leaves);
            let slot = &mut slots[5 * timeslot as usize..][..5];
            slot[0] |= mask as u8;
            slot[1] |= (mask >> 8) as u8;
            slot[2] = if slot[2] == down || direction == 1 { down } else { up };
            slot[3] += 1;
            slot[4] |= (burst == 2) as u8;
        }
    }
}

/// A book with a byte or two changed; or with one byte of a booking changed, or two bookings of a seat exchanged, and
/// timeslots that say so: only what else is asked of a book can refuse it.
fn damaged(dice: &mut Dice, mut b: MqBook) -> MqBook {
    let values = [0, 1, 1, 2, 3, 4, 16, 40, 41, 255];
    if dice.below(2) == 0 {
        for _ in 0..=dice.below(2) {
            b.0[dice.below(BOOK_BYTES as u32) as usize] = dice.one_of(&values);
        }
        return b;
    }
    let seat = &mut b.0[dice.below(3) as usize * SEAT_BYTES..][..SEAT_BYTES];
    let held = seat[6] as u32;
    if held != 0 {
        let [p, q] = [0, 1].map(|_| 7 + 8 * dice.below(held) as usize);
        if dice.below(3) == 0 {
            (0..8).for_each(|k| seat.swap(p + k, q + k));
        } else {
            seat[p + dice.below(8) as usize] = dice.one_of(&values);
        }
        sum_again(seat);
    }
    b
}

/// Each byte of each seat's timeslots changed alone, to its neighbour, by one bit and to a thrown one: every call
/// refuses the book.
fn damaged_slots(tally: &mut Tally, dice: &mut Dice, b: MqBook) {
    for at in (0..16).flat_map(|seat| {
        let seat = seat * SEAT_BYTES;
        seat + SLOTS_AT..seat + SEAT_BYTES
    }) {
        let byte = b.0[at];
        for changed in
            [byte.wrapping_add(1), byte ^ (1 << dice.below(8)), byte ^ (1 + dice.below(255) as u8)]
        {
            let mut c = b;
            c.0[at] = changed;
            let seat = dice.below(16);
            let before = tally.seen[12];
            match dice.below(6) {
                0 => {
                    let x = [dice.below(15), 0, 1, 16, 1, 1, 0, 0];
                    tally.both("book", library::book(c, seat, x), plain::book(c, seat, x));
                }
                1 => {
                    let t = dice.below(15);
                    tally.both(
                        "cancel",
                        library::cancel(c, seat, t, 16, 1),
                        plain::cancel(c, seat, t, 16, 1),
                    );
                }
                2 => {
                    tally.both(
                        "open",
                        library::open(c, seat, 0, 1, 0, 0, 0),
                        plain::open(c, seat, 0, 1, 0, 0, 0),
                    );
                }
                3 => {
                    tally.both("close", library::close(c, seat), plain::close(c, seat));
                }
                4 => tally.list(c, seat, 320),
                _ => tally.summary(c, seat, dice.below(15)),
            }
            same(tally.seen[12], before + 1, || {
                format!("byte {at}, {byte} changed to {changed}: not refused as broken")
            });
        }
    }
}

/// Rows of thrown calls, the book going on from call to call; and each call now and then on a damaged copy of the book.
pub fn compare() -> u32 {
    let mut tally = Tally::default();
    for seed in 0..20 {
        let mut dice = Dice::new(seed + 10);
        let mut b = library::empty_book();
        if b != plain::empty() {
            same("an empty book", "another", String::new);
        }
        for _ in 0..4000 {
            b = call(&mut tally, &mut dice, b);
            if dice.below(4) == 0 {
                let damaged = damaged(&mut dice, b);
                call(&mut tally, &mut dice, damaged);
            }
        }
        (0..17).for_each(|seat| tally.summaries(b, seat));
        damaged_slots(&mut tally, &mut dice, b);
    }
    let unseen: Vec<usize> =
        [0, 1, 2, 3, 4, 5, 6, 7, 8, 9, 11, 12, 13, 14, 15, 16, 17, 18, 19, 20, 21]
            .into_iter()
            .filter(|n| tally.seen[*n] == 0)
            .collect();
    same(unseen, vec![], || "refusals of the class book that were never met".to_string());
    tally.calls
}

/// Fifteen open seats of this long count with eight bookings each, and one that is closed.
fn class_book(long: u32) -> MqBook {
    let mut b = plain::empty();
    for seat in 0..15 {
        b = plain::open(b, seat, seat, 1, 0, long, 6).book;
        for turn in 0..8 {
            b = plain::book(b, seat, wanted(long, turn)).book;
        }
    }
    b
}

/// Sixteen open seats and so many bookings, one after another to each: at most two codes of a timeslot.
fn opened_book(bookings: u32) -> MqBook {
    let mut b = plain::empty();
    for seat in 0..16 {
        b = plain::open(b, seat, seat, 1, 0, 16, 6).book;
    }
    for j in 0..bookings {
        let (seat, turn) = if j < 160 { (j % 16, j / 16) } else { (j % 8, j / 8 - 10) };
        let answer = plain::book(b, seat, [1 + turn * 5 % 14, 0, 1, 16, 1 + turn / 14, 1, 0, 0]);
        assert_eq!(answer.refusal, 0, "booking {j}");
        b = answer.book;
    }
    b
}

/// Asking a summary of a book with so many bookings.
fn summary_line(bookings: u32) -> Line {
    let b = opened_book(bookings);
    Line::new(
        format!("summary, {bookings} bookings"),
        (0..60).map(|i| (i * 7 % 16, i % 15)).collect(),
        move |&(seat, t)| library::summary(*black_box(&b), seat, t),
        move |&(seat, t)| plain::summary(*black_box(&b), seat, t),
    )
    .with_limit(&limits::SUMMARY)
}

/// The booking of a seat's turn: not in list order. Under the count 4 by odd users.
fn wanted(long: u32, turn: u32) -> [u32; 8] {
    let user = if long == 4 { 1 + turn % 4 * 2 } else { 1 + turn };
    [1 + turn * 5 % 14, 0, 1, 16, 1, user, 0, 0]
}

pub fn lines() -> Vec<Line> {
    let (b, wide) = (class_book(16), class_book(4));
    let cells = || (0..60).collect();
    let seats = || (0..60).map(|i| i % 15).collect();
    let more = (0..60).map(|i| (i % 15, wanted(16, 8 + i / 15))).collect();
    let odd = (0..60).map(|i| (i % 15, wanted(4, 8 + i / 15))).collect();
    let access = (0..60).map(|i| (i % 15, [wanted(16, i % 8)[0], 0, 3, 16, 2, 9, 0, 0])).collect();
    let fewer = (0..60).map(|i| (i % 15, wanted(16, i % 8)[0])).collect();
    let (mut ours, mut theirs) = ([0; 320], [0; 320]);
    vec![
        Line::new("empty book", vec![(); 200], |_| library::empty_book(), |_| plain::empty())
            .with_limit(&limits::EMPTY_BOOK),
        Line::new(
            "open",
            cells(),
            move |&cell| library::open(*black_box(&b), 15, cell, 1, 0, 0, 0),
            move |&cell| plain::open(*black_box(&b), 15, cell, 1, 0, 0, 0),
        ),
        Line::new(
            "open, 16 and 6 outright",
            cells(),
            move |&cell| library::open(*black_box(&b), 15, cell, 1, 0, 16, 6),
            move |&cell| plain::open(*black_box(&b), 15, cell, 1, 0, 16, 6),
        ),
        Line::new(
            "book",
            more,
            move |&(seat, x)| library::book(*black_box(&b), seat, x),
            move |&(seat, x)| plain::book(*black_box(&b), seat, x),
        ),
        Line::new(
            "book, type 3 beside type 1",
            access,
            move |&(seat, x)| library::book(*black_box(&b), seat, x),
            move |&(seat, x)| plain::book(*black_box(&b), seat, x),
        ),
        Line::new(
            "book, under the count 4",
            odd,
            move |&(seat, x)| library::book(*black_box(&wide), seat, x),
            move |&(seat, x)| plain::book(*black_box(&wide), seat, x),
        ),
        Line::new(
            "cancel",
            fewer,
            move |&(seat, t)| library::cancel(*black_box(&b), seat, t, 16, 1),
            move |&(seat, t)| plain::cancel(*black_box(&b), seat, t, 16, 1),
        ),
        Line::new(
            "close",
            seats(),
            move |&seat| library::close(*black_box(&b), seat),
            move |&seat| plain::close(*black_box(&b), seat),
        ),
        Line::new(
            "list",
            seats(),
            move |&seat| library::list(*black_box(&b), seat, black_box(&mut ours)),
            move |&seat| plain::list(*black_box(&b), seat, black_box(&mut theirs)),
        ),
        summary_line(0),
        summary_line(239),
    ]
}
