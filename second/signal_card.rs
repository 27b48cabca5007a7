//! Document 02, C-12, "Chips for the signal card": "a complex chip as two f32 numbers at a chosen level".

use crate::midambles::{family, one_chip, whole_midamble};
use crate::refusals::{refuse_if, Answer};
use crate::rows::Rows;

/// "The level a is a whole number from 1 to 2047": "22 for another level".
fn refuse_other_level(level: u32) -> Answer<()> {
    refuse_if(!(1..=2047).contains(&level), 22)
}

/// A chip as a pair, real part and imaginary part: "Powers 0, 1, 2, 3 are (a, 0), (0, a), (-a, 0), (0, -a), with plain
/// zero and not minus zero." For levels that are not refused, "so nothing is rounded".
fn pair(power: u8, level: u32) -> (f32, f32) {
    let a = level as f32;
    match power {
        0 => (a, 0.0),
        1 => (0.0, a),
        2 => (-a, 0.0),
        3 => (0.0, -a),
        _ => unreachable!("a chip is written as its power of j, 0 to 3"),
    }
}

/// "Give any chip of any user as a pair, real part and imaginary part." Refusals 1 to 4 and 10, as one midamble chip
/// has them, and 22, "last in order".
pub fn one_pair(
    rows: &Rows,
    cell: u32,
    burst_type: u32,
    count: u32,
    user: u32,
    i: u32,
    level: u32,
) -> Answer<(f32, f32)> {
    let power = one_chip(rows, cell, burst_type, count, user, i)?;
    refuse_other_level(level)?;
    Ok(pair(power, level))
}

/// "Fill a lent row with the whole midamble, real then imaginary", chip after chip; the number of floats written.
/// Refusals 1 to 4 and 11, and 22, "last in order".
pub fn all_pairs(
    rows: &Rows,
    cell: u32,
    burst_type: u32,
    count: u32,
    user: u32,
    level: u32,
    memory: &mut [f32],
) -> Answer<usize> {
    // Memory of this program's own, as long as a midamble: of what is lent, the call needs two floats a chip.
    let mut chips = vec![0; family(burst_type).midamble_length];
    whole_midamble(rows, cell, burst_type, count, user, &mut chips)?;
    let needed = 2 * chips.len();
    refuse_if(memory.len() < needed, 11)?;
    refuse_other_level(level)?;
    for (place, power) in chips.into_iter().enumerate() {
        let (real, imaginary) = pair(power, level);
        memory[2 * place] = real;
        memory[2 * place + 1] = imaginary;
    }
    Ok(needed)
}

/// The numbers parted by blanks, each in decimal "with a minus sign where they are negative"; a minus zero, if there
/// were one, is `-0`.
pub fn words(numbers: &[f32]) -> String {
    let words = numbers.iter().map(|number| {
        let sign = if number.is_sign_negative() { "-" } else { "" };
        format!("{sign}{}", number.abs())
    });
    words.collect::<Vec<String>>().join(" ")
}
