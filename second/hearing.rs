//! Document 02, C-18, "Who is that on the air?": which of the users that a count permits is heard best in "a lent row
//! of received f32 pairs, aligned with the midamble".
//!
//! There "every f32 step is exact and must equal the whole-number sum": here are the whole numbers alone.

use crate::midambles::{family, permitted_midambles, refusals_1_to_3};
use crate::refusals::{refuse_if, Answer};
use crate::rows::Rows;

/// "The reply is either nobody, or a user with the two sums."
#[derive(Clone, Copy, Debug, PartialEq, Eq)]
pub enum Heard {
    Nobody,
    User { user: u32, re: i64, im: i64 },
}

impl Heard {
    /// `nobody`, or `user K RE IM`, as docs/LESSONS.md has it.
    pub fn words(self) -> String {
        match self {
            Heard::Nobody => "nobody".to_string(),
            Heard::User { user, re, im } => format!("user {user} {re} {im}"),
        }
    }
}

/// "Samples are whole numbers from -2047 to 2047": "24 for a sample outside the rule". What is no whole number is
/// nothing here, and a minus zero "reads as zero".
fn within_the_rule(lent: &Option<i64>) -> Answer<i64> {
    match *lent {
        Some(sample) if (-2047..=2047).contains(&sample) => Ok(sample),
        _ => Err(24),
    }
}

/// Real and imaginary part of j to the power that a chip is written as.
fn parts(power: u8) -> (i64, i64) {
    match power {
        0 => (1, 0),
        1 => (0, 1),
        2 => (-1, 0),
        3 => (0, -1),
        _ => unreachable!("a chip is written as its power of j, 0 to 3"),
    }
}

/// "Multiply each by the conjugate of the user's chip and add": of a sample x + jy and a chip c + jd the product is (x
/// + jy)(c - jd) = xc + yd + j(yc - xd). The samples are real part then imaginary part, chip after chip.
fn sums(samples: &[i64], chips: &[u8]) -> (i64, i64) {
    let (mut re, mut im) = (0, 0);
    for (place, power) in chips.iter().enumerate() {
        let (x, y) = (samples[2 * place], samples[2 * place + 1]);
        let (c, d) = parts(*power);
        re += x * c + y * d;
        im += y * c - x * d;
    }
    (re, im)
}

/// Who is heard in a lent row of samples, real then imaginary, chip after chip: "the user with the greatest sum of
/// squares, taken over whole numbers, the lowest user on a tie, nobody if all sums are zero". Of the row two samples a
/// chip are read. A sample that is no whole number is lent as nothing. Refusals 1, 2, 3, 11, 24.
pub fn hear(
    rows: &Rows,
    cell: u32,
    burst_type: u32,
    count: u32,
    lent: &[Option<i64>],
) -> Answer<Heard> {
    refusals_1_to_3(cell, burst_type, count)?;
    let needed = 2 * family(burst_type).midamble_length;
    refuse_if(lent.len() < needed, 11)?;
    let samples: Vec<i64> =
        lent[..needed].iter().map(within_the_rule).collect::<Answer<Vec<i64>>>()?;
    let mut heard = Heard::Nobody;
    let mut greatest = 0;
    // From user 1 up, and only a greater sum of squares counts: of equal ones the lowest user's stays.
    for (user, chips) in permitted_midambles(rows, cell, burst_type, count) {
        let (re, im) = sums(&samples, &chips);
        if re * re + im * im > greatest {
            greatest = re * re + im * im;
            heard = Heard::User { user, re, im };
        }
    }
    Ok(heard)
}
