//! Chips for the signal card: the same tests, over tables that lie in memory. A row by the midamble's own loop over its
//! chips, and in one loop over its digits.

use super::digits::{self, row_of, POWERS};
use super::midambles::{self, code_of, fill_from, shift, user_refusal, LONG, SHORT};
use library::{MqAnswer, MqPair};

/// The chips of powers 0 to 3 at a level. A look into four pairs is quicker than tests of the power, which no processor
/// foresees.
#[inline(always)]
fn four_chips(level: u32) -> [[f32; 2]; 4] {
    let x = level as f32;
    [[x, 0.0], [0.0, x], [-x, 0.0], [0.0, -x]]
}

/// The chips of powers in a row, as many as there is place for.
#[inline(always)]
fn write_pairs(four: &[[f32; 2]; 4], powers: &[u8], out: &mut [f32]) {
    for (place, power) in out.chunks_exact_mut(2).zip(powers) {
        place.copy_from_slice(&four[*power as usize % 4]);
    }
}

#[inline(never)]
pub fn pair(cell: u32, burst: u32, count: u32, user: u32, chip: u32, level: u32) -> MqPair {
    let answer = midambles::chip(cell, burst, count, user, chip);
    if answer.refusal != 0 {
        return MqPair { refusal: answer.refusal, re: 0.0, im: 0.0 };
    }
    if level < 1 || level > 2047 {
        return MqPair { refusal: 22, re: 0.0, im: 0.0 };
    }
    let [re, im] = four_chips(level)[answer.value as usize % 4];
    MqPair { refusal: 0, re, im }
}

/// Two loops: the midamble's chips as bytes, the digit read for every one, then each as two floats.
fn fill_by_chips(t: &[u8], w: u32, n: u32, by: u32, level: u32, out: &mut [f32]) {
    let four = four_chips(level);
    let mut chips = [0; 512];
    let count = out.len() / 2;
    fill_from(t, w, n, by, count, &mut chips);
    write_pairs(&four, &chips[..count], out);
}

/// One loop: each digit is read once, and its powers are looked up among the four chips of the level.
fn fill_by_digits(t: &[u8], w: u32, n: u32, by: u32, level: u32, out: &mut [f32]) {
    let four = four_chips(level);
    digits::fill(row_of(t, w, n), by, 2, out, |d, skipped, place| {
        write_pairs(&four, &POWERS[d][skipped..], place);
    });
}

/// The eight floats of each of the sixteen digits at a level.
#[inline(always)]
fn sixteen_digits(level: u32) -> [[f32; 8]; 16] {
    let four = four_chips(level);
    let mut sixteen = [[0.0; 8]; 16];
    for (floats, powers) in sixteen.iter_mut().zip(&POWERS) {
        write_pairs(&four, powers, floats);
    }
    sixteen
}

/// All sixteen digits at the level first; then each digit is read once, and its floats are copied.
fn fill_by_sixteen(t: &[u8], w: u32, n: u32, by: u32, level: u32, out: &mut [f32]) {
    let sixteen = sixteen_digits(level);
    digits::fill(row_of(t, w, n), by, 2, out, |d, skipped, place| {
        place.copy_from_slice(&sixteen[d][2 * skipped..2 * skipped + place.len()]);
    });
}

#[inline(never)]
pub fn pairs(
    cell: u32,
    burst: u32,
    count: u32,
    user: u32,
    level: u32,
    out: &mut [f32],
) -> MqAnswer {
    whole(cell, burst, count, user, level, out, fill_by_chips)
}

#[inline(never)]
pub fn pairs_by_digits(
    cell: u32,
    burst: u32,
    count: u32,
    user: u32,
    level: u32,
    out: &mut [f32],
) -> MqAnswer {
    whole(cell, burst, count, user, level, out, fill_by_digits)
}

#[inline(never)]
pub fn pairs_by_sixteen(
    cell: u32,
    burst: u32,
    count: u32,
    user: u32,
    level: u32,
    out: &mut [f32],
) -> MqAnswer {
    whole(cell, burst, count, user, level, out, fill_by_sixteen)
}

#[inline(always)]
fn whole(
    cell: u32,
    burst: u32,
    count: u32,
    user: u32,
    level: u32,
    out: &mut [f32],
    fill: impl Fn(&[u8], u32, u32, u32, u32, &mut [f32]),
) -> MqAnswer {
    let n = user_refusal(cell, burst, count, user);
    if n != 0 {
        return MqAnswer::refusing(n);
    }
    let c = code_of(burst);
    let floats = 2 * c.length;
    if out.len() < floats as usize {
        return MqAnswer::refusing(11);
    }
    if level < 1 || level > 2047 {
        return MqAnswer::refusing(22);
    }
    let by = shift(&c, user);
    let row = &mut out[..floats as usize];
    if burst == 2 {
        fill(&SHORT, 24, cell, by, level, row);
    } else {
        fill(&LONG, 57, cell, by, level, row);
    }
    MqAnswer::giving(floats)
}
