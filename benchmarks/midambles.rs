//! One chip and whole midambles.

use crate::copies::copy_of;
use crate::dice::same;
use crate::limits;
use crate::plain::midambles as plain;
use crate::table::Line;
use library::MqAnswer;
use std::hint::black_box;

type Midamble = fn(u32, u32, u32, u32, &mut [u8]) -> MqAnswer;

/// The digit read for every chip, and each digit read once.
const FORMS: [Midamble; 2] = [plain::midamble, plain::midamble_by_digits];

/// Every cell, type, count and user and the numbers just outside, lent memory of several lengths, every chip.
pub fn compare() -> u32 {
    let mut compared = 0;
    for cell in (0..130).chain([u32::MAX]) {
        for burst in 0..=4 {
            for count in [0, 2, 3, 4, 6, 7, 8, 9, 15, 16, 17, u32::MAX] {
                for user in (0..=17).chain([u32::MAX]) {
                    for length in [0, 255, 256, 257, 511, 512, 600] {
                        let mut a = [0xA5; 600];
                        let r = library::midamble(cell, burst, count, user, &mut a[..length]);
                        for plain in FORMS {
                            let mut b = [0xA5; 600];
                            let s = plain(cell, burst, count, user, &mut b[..length]);
                            same((r, a), (s, b), || {
                                format!(
                                    "midamble {cell} {burst} {count} {user}, {length} bytes lent"
                                )
                            });
                        }
                        compared += 1;
                    }
                    let last = if library::chip(cell, burst, count, user, 1).refusal == 0 {
                        514
                    } else {
                        2
                    };
                    for chip in (0..last).chain([u32::MAX]) {
                        same(
                            library::chip(cell, burst, count, user, chip),
                            plain::chip(cell, burst, count, user, chip),
                            || format!("chip {cell} {burst} {count} {user} {chip}"),
                        );
                        compared += 1;
                    }
                }
            }
        }
    }
    compared
}

/// All cells, and the users that a count permits.
pub fn users(count: u32) -> impl Iterator<Item = (u32, u32)> {
    let permitted = move |user: &u32| plain::permitted(count, *user);
    (0..128).flat_map(move |cell| (1..=16).filter(permitted).map(move |user| (cell, user)))
}

/// All cells and users. Memory is not cleared between the calls.
fn whole(what: &'static str, burst: u32, count: u32, plain: Midamble) -> Line {
    let inputs = users(count).collect();
    let (mut ours, mut theirs) = ([0; 512], [0; 512]);
    let library = move |&(cell, user): &(u32, u32)| {
        library::midamble(cell, burst, count, user, black_box(&mut ours))
    };
    Line::new(what, inputs, library, move |&(cell, user)| {
        plain(cell, burst, count, user, black_box(&mut theirs))
    })
}

/// Less the copy of the row table, beside plain Rust that reads each digit once.
fn by_digits(what: &'static str, burst: u32, count: u32) -> Line {
    whole(what, burst, count, plain::midamble_by_digits)
        .less(copy_of(burst))
        .with_limit(&limits::MIDAMBLE_BY_DIGITS)
}

/// All cells and users, and some chips of each.
fn chips(what: &'static str, burst: u32, count: u32) -> Line {
    let inputs = users(count)
        .flat_map(|(cell, user)| (0..4).map(move |i| (cell, user, 61 * i + 1)))
        .collect();
    let library =
        move |&(cell, user, i): &(u32, u32, u32)| library::chip(cell, burst, count, user, i);
    Line::new(what, inputs, library, move |&(cell, user, i)| {
        plain::chip(cell, burst, count, user, i)
    })
}

pub fn lines() -> Vec<Line> {
    vec![
        chips("one chip, type 1", 1, 16),
        chips("one chip, type 2", 2, 6),
        whole("midamble, type 1", 1, 16, plain::midamble).with_limit(&limits::MIDAMBLE),
        whole("midamble, type 2", 2, 6, plain::midamble).with_limit(&limits::MIDAMBLE),
        whole("midamble, type 1, count 4", 1, 4, plain::midamble).with_limit(&limits::MIDAMBLE),
        by_digits("type 1, each digit once (*)", 1, 16),
        by_digits("type 2, each digit once (*)", 2, 6),
    ]
}
