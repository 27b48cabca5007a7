//! Blocks of a midamble: every cell, type, count and user, and the numbers just outside, from the start to beyond the
//! end in blocks of random lengths; then every place of one user a type, in lent blocks of every length around what is
//! left.

use super::LARGEST;
use crate::beside::Beside;
use second::blocks::Place;
use second::dice::Dice;

/// Cell, type, count and user: those whose places are all asked for, and their chips.
const USERS: [([u32; 4], u32); 3] =
    [([0, 1, 16, 8], 512), ([5, 2, 6, 4], 256), ([127, 3, 8, 1], 512)];

pub fn run(both: &mut Beside) {
    let mut dice = Dice::new(15);
    for cell in (0..=128).chain([LARGEST]) {
        for burst in [0, 1, 2, 3, 4, LARGEST] {
            for count in [0, 3, 4, 6, 8, 16, 17, LARGEST] {
                for user in (0..=17).chain([LARGEST]) {
                    one_user(both, &mut dice, [cell, burst, count, user]);
                }
            }
        }
    }
    for (user, chips) in USERS {
        every_place(both, user, chips);
    }
}

fn at([cell, burst_type, count, user]: [u32; 4], written: u32) -> Place {
    Place { cell, burst_type, count, user, written }
}

/// A midamble cut at random, or a start that is refused, and then blocks too.
fn one_user(both: &mut Beside, dice: &mut Dice, user: [u32; 4]) {
    match both.block_start(user) {
        Ok(start) => {
            let chips = if user[1] == 2 { 256 } else { 512 };
            let joined = cut(both, dice, start, chips);
            both.is_midamble(user, &joined);
            for written in [chips as u32 + 1, LARGEST] {
                for room in [0, 1, 512] {
                    both.block(at(user, written), room);
                }
            }
        }
        Err(_) => {
            for written in [0, 257, 513, LARGEST] {
                for room in [0, 1, 2, 3, 512] {
                    both.block(at(user, written), room);
                }
            }
        }
    }
}

/// Block after block from a place to the end, each at the place that the call before handed back, and two blocks more;
/// the chips joined.
fn cut(both: &mut Beside, dice: &mut Dice, start: Place, chips: usize) -> Vec<u8> {
    let mut place = start;
    let mut joined = Vec::new();
    let mut beyond = 0;
    while beyond < 2 {
        let room = match dice.below(6) {
            0 => 0,
            1 => 1 + dice.place(4),
            2 => 64,
            3 => 100,
            4 => dice.place(chips),
            _ => chips - joined.len() + dice.place(3),
        };
        if joined.len() == chips {
            beyond += 1;
        }
        let (written, next) = both.block(place, room);
        joined.extend(written);
        place = next;
    }
    joined
}

/// Every place of a midamble, one behind its end and the largest, in lent blocks of every length from 0 to one more than
/// is left.
fn every_place(both: &mut Beside, user: [u32; 4], chips: u32) {
    for written in (0..=chips + 1).chain([LARGEST]) {
        for room in 0..=chips.saturating_sub(written) + 1 {
            both.block(at(user, written), room as usize);
        }
    }
}
