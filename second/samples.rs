//! Rows of samples as they may be received, for lessons and figures: whole numbers, real part then imaginary part, chip
//! after chip.

use crate::dice::Dice;
use crate::midambles::family;
use crate::rows::Rows;
use crate::signal_card::all_pairs;

/// How many samples are read: two a chip.
pub fn needed(burst_type: u32) -> usize {
    2 * family(burst_type).midamble_length
}

/// A clean copy of a user at a level from 1 to 2047: what the signal card gets of it.
pub fn copy(rows: &Rows, cell: u32, burst_type: u32, user: u32, level: u32) -> Vec<i64> {
    // The count that permits every user of the type.
    let count = 2 * family(burst_type).base_users as u32;
    let mut lent = vec![f32::NAN; needed(burst_type)];
    all_pairs(rows, cell, burst_type, count, user, level, &mut lent)
        .expect("a user of the type, and a level within the rules");
    lent.into_iter().map(|number| number as i64).collect()
}

/// Two rows on the air at once.
pub fn together(one: &[i64], other: &[i64]) -> Vec<i64> {
    one.iter().zip(other).map(|(one, other)| one + other).collect()
}

/// Every pair times j, which makes -y + jx of x + jy.
pub fn turned(samples: &[i64]) -> Vec<i64> {
    samples.chunks_exact(2).flat_map(|pair| [-pair[1], pair[0]]).collect()
}

/// Every pair a chip late: nothing is received at the first, and the last is lost.
pub fn late(samples: &[i64]) -> Vec<i64> {
    [&[0, 0], &samples[..samples.len() - 2]].concat()
}

/// Every pair a chip early: the first is lost, and nothing is received at the last.
pub fn early(samples: &[i64]) -> Vec<i64> {
    [&samples[2..], &[0, 0]].concat()
}

/// With noise: each sample is more or less by up to `most`, but not beyond -2047 and 2047.
pub fn noisy(dice: &mut Dice, samples: &[i64], most: u32) -> Vec<i64> {
    let noise = |sample: &i64| {
        let received = sample + i64::from(dice.between(0, 2 * most)) - i64::from(most);
        received.clamp(-2047, 2047)
    };
    samples.iter().map(noise).collect()
}

/// Each sample as a word.
pub fn words(samples: &[i64]) -> Vec<String> {
    samples.iter().map(i64::to_string).collect()
}

/// The call with these words as its samples.
pub fn call([cell, burst_type, count]: [u32; 3], samples: &[String]) -> String {
    let call = format!("hear {cell} {burst_type} {count}");
    [&[call], samples].concat().join(" ")
}
