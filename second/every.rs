//! `second every`: one lesson of every question that docs/COMPARISON.md lists, for both programs to answer. It only
//! asks: no answer stands here. Written by an author of the library, but for the questions about blocks (`blocks`), the
//! signal card's and those of who is heard (`hearing`); these and the rest of this program by people who had not seen
//! it.

mod blocks;
mod hearing;

use crate::midambles::{family, good_count, permitted, permitted_users};
use crate::paging;
use crate::rows::Rows;
use crate::scenarios;
use crate::timeslots::{timeslot, Direction, Question, CHIPS};
use std::io::{self, Write};

/// Where the lines of the lesson go.
pub type Put<'a> = &'a mut dyn FnMut(String) -> io::Result<()>;

pub const LARGEST: u32 = u32::MAX;

/// Prints the lesson. The rows are for the samples that are received.
pub fn print(out: &mut dyn Write, rows: &Rows) -> io::Result<()> {
    let put: Put = &mut |line| writeln!(out, "{line}");
    midambles(put)?;
    chips(put)?;
    blocks::all(put)?;
    pairs_of_chips(put)?;
    pairs_of_midambles(put)?;
    hearing::all(put, rows)?;
    timeslots(put)?;
    beacons(put)?;
    indicators(put)?;
    owners(put)?;
    pages(put)?;
    readings(put)?;
    scenarios::all(put)
}

/// Prints the lines of `second no-calls`.
pub fn print_no_calls(out: &mut dyn Write, rows: &Rows) -> io::Result<()> {
    hearing::no_calls(&mut |line| writeln!(out, "{line}"), rows)
}

/// Every cell, type, count and user, and the numbers just outside; outside the rules cells 0, 127, 128 and the largest
/// number stand for all.
fn midambles(put: Put) -> io::Result<()> {
    for burst_type in [0, 1, 2, 3, 4, LARGEST] {
        for count in (0..=17).chain([LARGEST]) {
            let allowed = (1..=3).contains(&burst_type) && good_count(burst_type, count);
            for user in (0..=17).chain([LARGEST]) {
                let all = allowed && permitted(count, user);
                for cell in (0..=128).chain([LARGEST]) {
                    if all || [0, 127, 128, LARGEST].contains(&cell) {
                        put(format!("midamble {cell} {burst_type} {count} {user}"))?;
                    }
                }
            }
        }
    }
    Ok(())
}

/// Counts on both sides of the rule.
const COUNTS: [u32; 11] = [0, 3, 4, 5, 6, 7, 8, 9, 16, 17, LARGEST];

/// Users on both sides of every count's rule.
const USERS: [u32; 13] = [0, 1, 2, 3, 4, 5, 6, 7, 8, 9, 16, 17, LARGEST];

/// Every chip of one user of each type, and the chips just outside; each number that a chip's question may have wrong,
/// by itself and with others.
fn chips(put: Put) -> io::Result<()> {
    for (user, length) in [("0 1 16 8", 512), ("5 2 6 4", 256), ("127 3 8 1", 512)] {
        for i in (0..=length + 1).chain([LARGEST]) {
            put(format!("chip {user} {i}"))?;
        }
    }
    for cell in [127, 128, LARGEST] {
        for burst_type in [0, 1, 2, 3, 4, LARGEST] {
            for count in COUNTS {
                for user in USERS {
                    for i in [0, 1, 256, 257, 512, 513, LARGEST] {
                        put(format!("chip {cell} {burst_type} {count} {user} {i}"))?;
                    }
                }
            }
        }
    }
    Ok(())
}

/// Levels on both sides of the rule.
const LEVELS: [u32; 6] = [0, 1, 2046, 2047, 2048, LARGEST];

/// One chip as a pair: every chip of one user of each type, and the chips just outside; every level of some chips, and
/// the levels just outside; each number that the question may have wrong, by itself and with others. Where the cell is
/// wrong, fewer numbers stand for all.
fn pairs_of_chips(put: Put) -> io::Result<()> {
    for (user, length, level) in
        [("0 1 16 8", 512, 1), ("5 2 6 4", 256, 2047), ("127 3 8 1", 512, 1000)]
    {
        for i in (0..=length + 1).chain([LARGEST]) {
            put(format!("pair {user} {i} {level}"))?;
        }
    }
    // By document 01's figures the four long chips are all four powers of j.
    for chip in ["0 1 16 8 1", "0 1 16 8 2", "0 3 16 8 4", "0 3 16 8 453", "5 2 6 4 1"] {
        for level in 0..=2049 {
            put(format!("pair {chip} {level}"))?;
        }
    }
    for burst_type in [0, 1, 2, 3, 4, LARGEST] {
        for count in COUNTS {
            for user in USERS {
                for i in [0, 1, 256, 257, 512, 513, LARGEST] {
                    for level in LEVELS {
                        put(format!("pair 127 {burst_type} {count} {user} {i} {level}"))?;
                    }
                }
            }
        }
    }
    for cell in [128, LARGEST] {
        for burst_type in [0, 1, 2, 4] {
            for count in [0, 3, 4, 8] {
                for user in [0, 1, 2, 9] {
                    for i in [0, 1, 513] {
                        for level in LEVELS {
                            put(format!("pair {cell} {burst_type} {count} {user} {i} {level}"))?;
                        }
                    }
                }
            }
        }
    }
    Ok(())
}

/// A whole midamble as pairs: every type, count and user of the first and the last cell at the lowest and the highest
/// level; every cell for one user of each type, each at a level of its own; each number that the question may have
/// wrong, by itself and together with the level.
fn pairs_of_midambles(put: Put) -> io::Result<()> {
    for cell in [0, 127] {
        for burst_type in 1..=3 {
            for &count in family(burst_type).counts {
                for user in permitted_users(count) {
                    for level in [1, 2047] {
                        put(format!("pairs {cell} {burst_type} {count} {user} {level}"))?;
                    }
                }
            }
        }
    }
    for cell in 0..=127 {
        for user in ["1 16 8", "2 6 4", "3 8 1"] {
            put(format!("pairs {cell} {user} {}", 1 + 16 * cell))?;
        }
    }
    for right in RIGHT_USERS {
        for [cell, burst_type, count, user] in wrong_by_itself(right) {
            for level in LEVELS {
                put(format!("pairs {cell} {burst_type} {count} {user} {level}"))?;
            }
        }
    }
    Ok(())
}

/// Type, count and user, all within the rules.
const RIGHT_USERS: [[u32; 3]; 5] = [[1, 16, 16], [2, 6, 6], [3, 8, 8], [1, 4, 7], [3, 4, 5]];

/// Cell, type, count and user: as they are right, and each of them wrong by itself. With the counts stands user 1, whom
/// every count permits.
fn wrong_by_itself([burst_type, count, user]: [u32; 3]) -> Vec<[u32; 4]> {
    let wrong_users = USERS.into_iter().filter(|user| !permitted(count, *user));
    let mut questions = vec![[127, burst_type, count, user]];
    questions.extend([128, LARGEST].map(|cell| [cell, burst_type, count, user]));
    questions.extend([0, 4, LARGEST].map(|burst_type| [127, burst_type, count, user]));
    questions.extend(COUNTS.map(|count| [127, burst_type, count, 1]));
    questions.extend(wrong_users.map(|user| [127, burst_type, count, user]));
    questions
}

/// Every question about a timeslot, and every chip of those that are answered.
fn timeslots(put: Put) -> io::Result<()> {
    for question in timeslot_questions() {
        let Question { burst_type, direction, factor, tfci_bits, tpc_bits } = question;
        let words = format!("{burst_type} {} {factor} {tfci_bits} {tpc_bits}", direction.word());
        put(format!("parts {words}"))?;
        let first = if timeslot(&question).is_ok() { 0 } else { CHIPS as u32 - 1 };
        for chip in (first..=CHIPS as u32).chain([LARGEST]) {
            put(format!("at {words} {chip}"))?;
        }
    }
    Ok(())
}

fn timeslot_questions() -> Vec<Question> {
    let mut questions = Vec::new();
    for burst_type in [0, 1, 2, 3, 4, LARGEST] {
        for direction in [Direction::Up, Direction::Down] {
            for factor in [0, 1, 2, 3, 4, 8, 16, 32] {
                for tfci_bits in [0, 2, 4, 5, 8, 16, 32, 64] {
                    for tpc_bits in 0..=2 {
                        questions.push(Question {
                            burst_type,
                            direction,
                            factor,
                            tfci_bits,
                            tpc_bits,
                        });
                    }
                }
            }
        }
    }
    questions
}

fn beacons(put: Put) -> io::Result<()> {
    for case in [0, 1, 2, 3, LARGEST] {
        for k in (0..=16).chain([LARGEST]) {
            put(format!("beacon {case} {k}"))?;
        }
    }
    Ok(())
}

/// Burst types and indicator lengths, those outside the rules too.
fn types_and_lengths() -> Vec<(u32, u32)> {
    let lengths = [0, 2, 3, 4, 8, 16];
    (0..=4).flat_map(|burst_type| lengths.map(|length| (burst_type, length))).collect()
}

/// Every indicator of every block, and some behind: no frame has more than 68.
fn indicators(put: Put) -> io::Result<()> {
    for (burst_type, length) in types_and_lengths() {
        for frames in 0..=5 {
            for number in (0..=68 * frames + 1).chain([LARGEST]) {
                put(format!("indicator {burst_type} {length} {frames} {number}"))?;
            }
        }
    }
    Ok(())
}

/// Every bit, and some behind: no burst has more than 276.
fn owners(put: Put) -> io::Result<()> {
    for (burst_type, length) in types_and_lengths() {
        for bit in (0..=277).chain([LARGEST]) {
            put(format!("owner {burst_type} {length} {bit}"))?;
        }
    }
    Ok(())
}

/// Digits 0 and 1, of which digit n is 0 where the formula gives 0.
fn digits(count: usize, formula: impl Fn(usize) -> usize) -> String {
    (0..count).map(|n| if formula(n) == 0 { '0' } else { '1' }).collect()
}

/// Setting q is ((q * q + q * L) div 3) mod 3.
pub fn setting(q: usize, length: u32) -> usize {
    (q * q + q * length as usize) / 3 % 3
}

/// Bit n is ((n div 7) * (n div 11)) mod 3.
pub fn bit(n: usize) -> usize {
    (n / 7) * (n / 11) % 3
}

/// Settings of every count, and one indicator on after the other.
fn pages(put: Put) -> io::Result<()> {
    for (burst_type, length) in types_and_lengths() {
        for count in 1..=69 {
            let settings = digits(count, |q| setting(q, length));
            put(format!("page {burst_type} {length} {settings}"))?;
        }
        for on in 0..68 {
            let settings = digits(68, |q| usize::from(q == on));
            put(format!("page {burst_type} {length} {settings}"))?;
        }
    }
    Ok(())
}

/// Bits of counts around the needed ones; a page as it is written, and with each of its bits turned over.
fn readings(put: Put) -> io::Result<()> {
    for (burst_type, length) in types_and_lengths() {
        for count in [1, 243, 244, 245, 275, 276, 277, 300] {
            put(format!("read {burst_type} {length} {}", digits(count, bit)))?;
        }
        let settings: Vec<u8> = (0..68).map(|q| setting(q, length) as u8).collect();
        let mut page = [0; 276];
        // Refused, the page stays as it is, all off.
        let bits = paging::write(burst_type, length, &settings, &mut page).unwrap_or(0);
        put(format!("read {burst_type} {length} {}", digits(276, |n| page[n].into())))?;
        for turned in 0..bits {
            let page = digits(276, |n| (page[n] ^ u8::from(n == turned)).into());
            put(format!("read {burst_type} {length} {page}"))?;
        }
    }
    Ok(())
}
