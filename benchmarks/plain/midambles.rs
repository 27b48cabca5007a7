//! Midambles: the same tests as the library, over tables that lie in memory. One loop reads the digit for every chip,
//! another each digit once for its four.

use super::digits::{self, row_of, POWERS};
use crate::rows;
use library::MqAnswer;

pub static LONG: [u8; 7296] = rows::table(b"long ", 57);
pub static SHORT: [u8; 3072] = rows::table(b"short ", 24);

pub struct Code {
    base: u32,
    step: u32,
    half: u32,
    pub length: u32,
}

pub fn code_of(burst: u32) -> Code {
    if burst == 2 {
        return Code { base: 3, step: 64, half: 32, length: 256 };
    }
    Code { base: 8, step: 57, half: 28, length: 512 }
}

/// The refusals that need no user: 1, 2 and 3.
#[inline(always)]
pub fn count_refusal(cell: u32, burst: u32, count: u32) -> u32 {
    if cell > 127 {
        return 1;
    }
    if burst < 1 || burst > 3 {
        return 2;
    }
    if !good_count(burst, count) {
        return 3;
    }
    0
}

pub fn user_refusal(cell: u32, burst: u32, count: u32, user: u32) -> u32 {
    let n = count_refusal(cell, burst, count);
    if n == 0 && !permitted(count, user) {
        return 4;
    }
    n
}

pub fn good_count(burst: u32, count: u32) -> bool {
    if burst == 2 {
        matches!(count, 3 | 6)
    } else {
        matches!(count, 4 | 8 | 16)
    }
}

/// Whether a count permits a user; the count is a good one.
pub fn permitted(count: u32, user: u32) -> bool {
    if count == 4 {
        return user < 8 && user % 2 == 1;
    }
    1 <= user && user <= count
}

pub fn shift(c: &Code, user: u32) -> u32 {
    if user <= c.base {
        return (c.base - user) * c.step;
    }
    if user < 2 * c.base {
        return (2 * c.base - user - 1) * c.step + c.half;
    }
    (c.base - 1) * c.step + c.half
}

/// Element chip + by of row n of a table of rows of w bytes, as its power of j.
fn element_in(t: &[u8], w: u32, n: u32, chip: u32, by: u32) -> u8 {
    let i = chip + by;
    let p = (i - 1) % (8 * w);
    let b = t[(n * w + p / 8) as usize];
    let bit = (b >> (7 - p % 8)) % 2;
    ((i + 2 * (1 - bit as u32)) % 4) as u8
}

/// Reads the digit for every chip.
pub fn fill_from(t: &[u8], w: u32, n: u32, by: u32, count: usize, out: &mut [u8]) {
    let mut i = 0;
    while i < count {
        out[i] = element_in(t, w, n, i as u32 + 1, by);
        i += 1;
    }
}

#[inline(never)]
pub fn chip(cell: u32, burst: u32, count: u32, user: u32, chip: u32) -> MqAnswer {
    let n = user_refusal(cell, burst, count, user);
    if n != 0 {
        return MqAnswer::refusing(n);
    }
    let c = code_of(burst);
    if chip < 1 || chip > c.length {
        return MqAnswer::refusing(10);
    }
    let by = shift(&c, user);
    if burst == 2 {
        return MqAnswer::giving(element_in(&SHORT, 24, cell, chip, by) as u32);
    }
    MqAnswer::giving(element_in(&LONG, 57, cell, chip, by) as u32)
}

#[inline(never)]
pub fn midamble(cell: u32, burst: u32, count: u32, user: u32, out: &mut [u8]) -> MqAnswer {
    whole(cell, burst, count, user, out, fill_from)
}

/// Fills as fill_from does, but reads each digit once.
pub fn fill_by_digits(t: &[u8], w: u32, n: u32, by: u32, count: usize, out: &mut [u8]) {
    digits::fill(row_of(t, w, n), by, 1, &mut out[..count], |d, skipped, place| {
        place.copy_from_slice(&POWERS[d][skipped..skipped + place.len()]);
    });
}

#[inline(never)]
pub fn midamble_by_digits(
    cell: u32,
    burst: u32,
    count: u32,
    user: u32,
    out: &mut [u8],
) -> MqAnswer {
    whole(cell, burst, count, user, out, fill_by_digits)
}

#[inline(always)]
fn whole(
    cell: u32,
    burst: u32,
    count: u32,
    user: u32,
    out: &mut [u8],
    fill: impl Fn(&[u8], u32, u32, u32, usize, &mut [u8]),
) -> MqAnswer {
    let n = user_refusal(cell, burst, count, user);
    if n != 0 {
        return MqAnswer::refusing(n);
    }
    let c = code_of(burst);
    if out.len() < c.length as usize {
        return MqAnswer::refusing(11);
    }
    fill_row(cell, burst, shift(&c, user), c.length as usize, out, fill);
    MqAnswer::giving(c.length)
}

/// Fills from the cell's row of the table that a burst type reads.
#[inline(always)]
pub fn fill_row(
    cell: u32,
    burst: u32,
    by: u32,
    count: usize,
    out: &mut [u8],
    fill: impl Fn(&[u8], u32, u32, u32, usize, &mut [u8]),
) {
    if burst == 2 {
        fill(&SHORT, 24, cell, by, count, out);
    } else {
        fill(&LONG, 57, cell, by, count, out);
    }
}
