//! Every cell, type, count and user, and the numbers just outside, at levels on both sides of the rule: the whole row,
//! in lent rows of lengths around the needed one, and every chip by its own call.

use super::LARGEST;
use crate::beside::Beside;
use library::MqPair;

/// Levels on both sides of the rule.
const LEVELS: [u32; 6] = [0, 1, 2046, 2047, 2048, LARGEST];

pub fn run(both: &mut Beside) {
    for cell in (0..=128).chain([LARGEST]) {
        for burst in [0, 1, 2, 3, 4, LARGEST] {
            for count in [0, 3, 4, 6, 8, 16, 17, LARGEST] {
                for user in (0..=17).chain([LARGEST]) {
                    one_user(both, [cell, burst, count, user]);
                }
            }
        }
    }
    levels(both);
}

fn one_user(both: &mut Beside, [cell, burst, count, user]: [u32; 4]) {
    let chips: u32 = if burst == 2 { 256 } else { 512 };
    let needed = 2 * chips as usize;
    // Not the same for every user: 1 to 2047.
    let level = 1 + (cell % 128 * 16 + user % 17 + burst % 5) % 2047;
    let mut answered = Err(0);
    for room in [0, 1, needed - 1, needed + 1, needed + 40, needed] {
        answered = both.pairs([cell, burst, count, user, level], room);
    }
    for level in [0, 2048, LARGEST] {
        let _ = both.pairs([cell, burst, count, user, level], needed - 1);
        let _ = both.pairs([cell, burst, count, user, level], needed);
    }
    for i in [0, chips + 1, LARGEST] {
        both.pair([cell, burst, count, user, i, level]);
        both.pair([cell, burst, count, user, i, 0]);
    }
    match answered {
        Ok(row) => {
            for (pair, i) in row.chunks(2).zip(1..) {
                let wanted = MqPair { refusal: 0, re: pair[0], im: pair[1] };
                both.pair_is([cell, burst, count, user, i, level], wanted);
            }
        }
        Err(_) => {
            for level in LEVELS {
                both.pair([cell, burst, count, user, 1, level]);
            }
        }
    }
}

/// Every level, and some outside, of chips with each power of j; and whole rows.
fn levels(both: &mut Beside) {
    for level in
        (0..=2100).chain([4095, 65535, 65536, 16_777_216, 16_777_217, 2_147_483_648, LARGEST])
    {
        for [cell, burst, count, user, i] in [
            [0, 1, 16, 8, 1],
            [0, 1, 16, 8, 2],
            [0, 3, 8, 8, 4],
            [0, 3, 8, 8, 453],
            [5, 2, 6, 4, 1],
        ] {
            both.pair([cell, burst, count, user, i, level]);
        }
        let _ = both.pairs([17, 1, 16, 9, level], 1024);
        let _ = both.pairs([17, 2, 6, 5, level], 512);
    }
}
