//! Chips for the signal card: one pair, and whole rows.

use crate::copies::copy_of;
use crate::dice::same;
use crate::limits;
use crate::midambles::users;
use crate::plain::signal_card as plain;
use crate::table::Line;
use library::MqAnswer;
use std::hint::black_box;

type Pairs = fn(u32, u32, u32, u32, u32, &mut [f32]) -> MqAnswer;

/// The digit read for every chip, each digit read once, and all sixteen digits at the level first.
const FORMS: [Pairs; 3] = [plain::pairs, plain::pairs_by_digits, plain::pairs_by_sixteen];

/// The bits of a row.
fn bits(row: &[f32]) -> Vec<u32> {
    row.iter().map(|x| x.to_bits()).collect()
}

/// Some cells, every type, count and user and the numbers just outside, levels on both sides of the rule, rows of several
/// lengths, every chip.
pub fn compare() -> u32 {
    let mut compared = 0;
    for cell in [0, 1, 64, 127, 128, u32::MAX] {
        for burst in 0..=4 {
            for count in [0, 3, 4, 6, 8, 9, 16, u32::MAX] {
                for user in (0..=17).chain([u32::MAX]) {
                    for level in [0, 1, 2, 1000, 2047, 2048, u32::MAX] {
                        compared += one(cell, burst, count, user, level);
                    }
                }
            }
        }
    }
    compared
}

fn one(cell: u32, burst: u32, count: u32, user: u32, level: u32) -> u32 {
    let mut compared = 0;
    for length in [0, 511, 512, 513, 1023, 1024, 1100] {
        let lent = [f32::from_bits(0x7FA0_1234); 1100];
        let mut a = lent;
        let r = library::pairs(cell, burst, count, user, level, &mut a[..length]);
        for plain in FORMS {
            let mut b = lent;
            let s = plain(cell, burst, count, user, level, &mut b[..length]);
            same((r, bits(&a)), (s, bits(&b)), || {
                format!("pairs {cell} {burst} {count} {user} {level}, {length} floats lent")
            });
        }
        compared += 1;
    }
    let answered = library::pair(cell, burst, count, user, 1, level).refusal == 0;
    for chip in (0..if answered { 514 } else { 2 }).chain([u32::MAX]) {
        same(
            library::pair(cell, burst, count, user, chip, level),
            plain::pair(cell, burst, count, user, chip, level),
            || format!("pair {cell} {burst} {count} {user} {chip} {level}"),
        );
        compared += 1;
    }
    compared
}

/// All cells and users, at levels that change from one to the next. The row is not cleared between the calls.
fn whole(what: &'static str, burst: u32, count: u32, plain: Pairs) -> Line {
    let inputs = users(count).collect();
    let level = |cell: u32, user: u32| 1 + 15 * cell + user;
    let (mut ours, mut theirs) = ([0.0; 1024], [0.0; 1024]);
    let library = move |&(cell, user): &(u32, u32)| {
        library::pairs(cell, burst, count, user, level(cell, user), black_box(&mut ours))
    };
    Line::new(what, inputs, library, move |&(cell, user)| {
        plain(cell, burst, count, user, level(cell, user), black_box(&mut theirs))
    })
}

/// Less the copy of the row table, beside plain Rust that reads each digit once.
fn by_digits(what: &'static str, burst: u32, count: u32, plain: Pairs) -> Line {
    whole(what, burst, count, plain).less(copy_of(burst))
}

/// All cells and users, and some chips of each.
fn one_pair(what: &'static str, burst: u32, count: u32) -> Line {
    let inputs = users(count)
        .flat_map(|(cell, user)| (0..4).map(move |i| (cell, user, 61 * i + 1)))
        .collect();
    let library =
        move |&(cell, user, i): &(u32, u32, u32)| library::pair(cell, burst, count, user, i, 1000);
    Line::new(what, inputs, library, move |&(cell, user, i)| {
        plain::pair(cell, burst, count, user, i, 1000)
    })
}

pub fn lines() -> Vec<Line> {
    vec![
        one_pair("one pair, type 1", 1, 16),
        one_pair("one pair, type 2", 2, 6),
        whole("row of pairs, type 1", 1, 16, plain::pairs).with_limit(&limits::PAIRS),
        whole("row of pairs, type 2", 2, 6, plain::pairs).with_limit(&limits::PAIRS),
        by_digits("type 1, pairs by digits (*)", 1, 16, plain::pairs_by_digits)
            .with_limit(&limits::PAIRS_BY_DIGITS),
        by_digits("type 2, pairs by digits (*)", 2, 6, plain::pairs_by_digits)
            .with_limit(&limits::PAIRS_BY_DIGITS),
        by_digits("type 1, 16 digits first (**)", 1, 16, plain::pairs_by_sixteen),
        by_digits("type 2, 16 digits first (**)", 2, 6, plain::pairs_by_sixteen),
    ]
}
