//! The questions about blocks of midambles in `second every`: calls only, no answers.

use super::{wrong_by_itself, Put, LARGEST, RIGHT_USERS};
use crate::midambles::{family, permitted_users};
use std::io;

/// All of them.
pub fn all(put: Put) -> io::Result<()> {
    every_user(put)?;
    every_place(put)?;
    wrong_users(put)
}

/// Lengths of a block: none, one chip, what the card asks for, a whole long midamble, and more.
const LENGTHS: [u32; 7] = [0, 1, 64, 100, 512, 513, LARGEST];

/// Places at the start of a midamble of the type, around 64, and on both sides of the rule.
fn places(burst_type: u32) -> [u32; 8] {
    let length = family(burst_type).midamble_length as u32;
    [0, 1, 63, 64, length - 1, length, length + 1, LARGEST]
}

/// A block of every one of the lengths at every one of the places.
fn blocks_at(put: Put, user: [u32; 4], places: [u32; 8]) -> io::Result<()> {
    let [cell, burst_type, count, user] = user;
    for place in places {
        for length in LENGTHS {
            put(format!("block {cell} {burst_type} {count} {user} {place} {length}"))?;
        }
    }
    Ok(())
}

/// Every type, count and user of the first and the last cell.
fn every_user(put: Put) -> io::Result<()> {
    for cell in [0, 127] {
        for burst_type in 1..=3 {
            for &count in family(burst_type).counts {
                for user in permitted_users(count) {
                    blocks_at(put, [cell, burst_type, count, user], places(burst_type))?;
                }
            }
        }
    }
    Ok(())
}

/// Every place of one user of each type, and the places just outside.
fn every_place(put: Put) -> io::Result<()> {
    for (user, length) in [("0 1 16 8", 512), ("5 2 6 4", 256), ("127 3 8 1", 512)] {
        for place in (0..=length + 1).chain([LARGEST]) {
            for lent in [0, 1, 5, 64] {
                put(format!("block {user} {place} {lent}"))?;
            }
        }
    }
    Ok(())
}

/// Each number that a midamble's question may have wrong, by itself and together with the place.
fn wrong_users(put: Put) -> io::Result<()> {
    for right in RIGHT_USERS {
        let [burst_type, _, _] = right;
        for user in wrong_by_itself(right) {
            blocks_at(put, user, places(burst_type))?;
        }
    }
    Ok(())
}
