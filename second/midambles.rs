//! Document 01, "Training sequences (clause 5.2.3, Annex A)"; the long count 4, and which users a count permits, are
//! document 02's.

use crate::refusals::{refuse_if, refuse_unknown_type, Answer};
use crate::rows::Rows;

/// One column set of the section's table: "types 1, 3" or "type 2".
pub struct Family {
    /// P
    pub period: usize,
    /// K'
    pub base_users: usize,
    /// W
    pub step: usize,
    pub midamble_length: usize,
    /// h
    pub half_step: usize,
    /// The midamble counts that refusal 3 allows.
    pub counts: &'static [u32],
    /// The last element read by any user.
    pub last_element: usize,
}

const LONG: Family = Family {
    period: 456,
    base_users: 8,
    step: 57,
    midamble_length: 512,
    half_step: 28,
    counts: &[4, 8, 16],
    last_element: 939,
};

const SHORT: Family = Family {
    period: 192,
    base_users: 3,
    step: 64,
    midamble_length: 256,
    half_step: 32,
    counts: &[3, 6],
    last_element: 416,
};

/// "Long rows serve types 1 and 3, short rows type 2."
pub fn family(burst_type: u32) -> &'static Family {
    if burst_type == 2 {
        &SHORT
    } else {
        &LONG
    }
}

/// Whether refusal 3 allows the count: 4, 8 or 16 for types 1 and 3, 3 or 6 for type 2.
pub fn good_count(burst_type: u32, count: u32) -> bool {
    family(burst_type).counts.contains(&count)
}

/// Refusal 3: a midamble count that is none of the burst type's.
pub fn refuse_bad_count(burst_type: u32, count: u32) -> Answer<()> {
    refuse_if(!good_count(burst_type, count), 3)
}

/// Whether the count permits the user. Under the count 4 "only odd users up to K', so users 1, 3, 5, 7"; under the
/// others the users from 1 to the count. What is no count at all permits nobody.
pub fn permitted(count: u32, user: u32) -> bool {
    match count {
        4 => [1, 3, 5, 7].contains(&user),
        3 | 6 | 8 | 16 => (1..=count).contains(&user),
        _ => false,
    }
}

/// The users that the count permits; no count permits one above 16.
pub fn permitted_users(count: u32) -> Vec<u32> {
    (1..=16).filter(|user| permitted(count, *user)).collect()
}

/// The row of a cell parameter: "Row n belongs to cell parameter n."
fn row(rows: &Rows, cell: u32, burst_type: u32) -> &str {
    let table = if burst_type == 2 { &rows.short } else { &rows.long };
    &table[cell as usize]
}

/// A complex number with whole parts.
#[derive(Clone, Copy, PartialEq)]
struct Complex {
    re: i32,
    im: i32,
}

impl Complex {
    fn times(self, other: Complex) -> Complex {
        Complex {
            re: self.re * other.re - self.im * other.im,
            im: self.re * other.im + self.im * other.re,
        }
    }
}

/// j to the power i, by i multiplications.
fn power_of_j(i: usize) -> Complex {
    let j = Complex { re: 0, im: 1 };
    (0..i).fold(Complex { re: 1, im: 0 }, |product, _| product.times(j))
}

/// "Each digit is four elements, highest bit first, 1 for +1 and 0 for -1."
fn elements_of_row(digits: &str) -> Vec<i32> {
    let mut elements = Vec::new();
    for digit in digits.chars() {
        let value = digit.to_digit(16).expect("rows are checked to be hexadecimal digits");
        for bit in [8, 4, 2, 1] {
            elements.push(if value & bit != 0 { 1 } else { -1 });
        }
    }
    elements
}

/// The complex basic sequence, i = 1 to P: element i is j to the power i, times the row's element. Place 0 of the
/// result is element 1.
fn complex_period(digits: &str, family: &Family) -> Vec<Complex> {
    let row_elements = elements_of_row(digits);
    (1..=family.period)
        .map(|i| power_of_j(i).times(Complex { re: row_elements[i - 1], im: 0 }))
        .collect()
}

/// "Beyond P the sequence repeats": the sequence up to the last element read.
fn extended(digits: &str, family: &Family) -> Vec<Complex> {
    let period = complex_period(digits, family);
    period.iter().copied().cycle().take(family.last_element).collect()
}

/// "A chip is written as its power of j, 0 to 3, in one byte."
fn written_chip(chip: Complex) -> u8 {
    (0..4).find(|power| power_of_j(*power) == chip).expect("a chip is a power of j") as u8
}

/// The extended sequence of a cell, each element written as its power of j. Place 0 is element 1.
pub fn elements(rows: &Rows, cell: u32, burst_type: u32) -> Vec<u8> {
    let sequence = extended(row(rows, cell, burst_type), family(burst_type));
    sequence.into_iter().map(written_chip).collect()
}

/// The shift of user k, with K = 2K'.
pub fn shift(family: &Family, k: usize) -> usize {
    let base = family.base_users;
    let all = 2 * base;
    if k <= base {
        (base - k) * family.step
    } else if k < all {
        (all - k - 1) * family.step + family.half_step
    } else {
        (base - 1) * family.step + family.half_step
    }
}

/// Refusals 1 to 3, common to all calls that name a cell, a burst type and a count.
pub fn refusals_1_to_3(cell: u32, burst_type: u32, count: u32) -> Answer<()> {
    refuse_if(cell > 127, 1)?;
    refuse_unknown_type(burst_type)?;
    refuse_bad_count(burst_type, count)
}

/// Refusals 1 to 4, common to one chip, a whole midamble and a block of one: the call names the count, so 4 goes by it.
pub fn refusals_1_to_4(cell: u32, burst_type: u32, count: u32, user: u32) -> Answer<()> {
    refusals_1_to_3(cell, burst_type, count)?;
    refuse_if(!permitted(count, user), 4)
}

/// The chips of a user, all of them, in the extended sequence of its cell: "Chip i of user k is element i + shift."
fn chips_among(elements: &[u8], burst_type: u32, user: u32) -> Vec<u8> {
    let family = family(burst_type);
    let shift = shift(family, user as usize);
    elements[shift..shift + family.midamble_length].to_vec()
}

/// The chips of a user, all of them. For questions that are not refused.
fn chips(rows: &Rows, cell: u32, burst_type: u32, user: u32) -> Vec<u8> {
    chips_among(&elements(rows, cell, burst_type), burst_type, user)
}

/// The users that the count permits, from 1 up, each with its chips. For questions that are not refused.
pub fn permitted_midambles(
    rows: &Rows,
    cell: u32,
    burst_type: u32,
    count: u32,
) -> Vec<(u32, Vec<u8>)> {
    let elements = elements(rows, cell, burst_type);
    let users = permitted_users(count).into_iter();
    users.map(|user| (user, chips_among(&elements, burst_type, user))).collect()
}

/// One midamble chip, i counted from 1. Refusals 1 to 4 and 10.
pub fn one_chip(
    rows: &Rows,
    cell: u32,
    burst_type: u32,
    count: u32,
    user: u32,
    i: u32,
) -> Answer<u8> {
    refusals_1_to_4(cell, burst_type, count, user)?;
    refuse_if(i < 1 || i as usize > family(burst_type).midamble_length, 10)?;
    Ok(chips(rows, cell, burst_type, user)[i as usize - 1])
}

/// A whole midamble into the first places of lent memory; the number of bytes written. Refusals 1 to 4 and 11.
pub fn whole_midamble(
    rows: &Rows,
    cell: u32,
    burst_type: u32,
    count: u32,
    user: u32,
    memory: &mut [u8],
) -> Answer<usize> {
    refusals_1_to_4(cell, burst_type, count, user)?;
    let length = family(burst_type).midamble_length;
    refuse_if(memory.len() < length, 11)?;
    memory[..length].copy_from_slice(&chips(rows, cell, burst_type, user));
    Ok(length)
}

/// The least S for which every chip i of that user in cell 0 is element i + S, found
/// by trying 0, 1, 2, .. and not by the formula.
pub fn least_shift(rows: &Rows, burst_type: u32, user: u32) -> Option<usize> {
    let all = elements(rows, 0, burst_type);
    let chips = chips(rows, 0, burst_type, user);
    (0..=all.len() - chips.len()).find(|s| all[*s..*s + chips.len()] == chips[..])
}
