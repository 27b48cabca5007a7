//! Midambles by the block.

use crate::copies::own_copy_of;
use crate::dice::{same, Dice};
use crate::limits;
use crate::midambles::users;
use crate::plain::blocks as plain;
use crate::plain::midambles::code_of;
use crate::table::Line;
use library::{MqAnswer, MqBlockPlace};
use std::hint::black_box;

/// One block by both sides, which must give the same answer and the same memory; the place that is handed back, and the
/// chips that were written.
fn block(place: MqBlockPlace, length: usize) -> (MqBlockPlace, Vec<u8>) {
    let (mut a, mut b) = ([0xA5; 600], [0xA5; 600]);
    let r = library::block(place, &mut a[..length]);
    same((r, a), (plain::block(place, &mut b[..length]), b), || {
        format!("block at {place:?}, {length} bytes lent")
    });
    (r.place, a[..r.written as usize].to_vec())
}

/// Some cells, every type, count and user and the numbers just outside, places and blocks around every end.
fn compare_places() -> u32 {
    let mut compared = 0;
    for cell in [0, 1, 64, 127, 128, u32::MAX] {
        for burst in 0..=4 {
            for count in [0, 3, 4, 6, 8, 9, 16, u32::MAX] {
                for user in (0..=17).chain([u32::MAX]) {
                    same(
                        library::block_start(cell, burst, count, user),
                        plain::start(cell, burst, count, user),
                        || format!("start of blocks {cell} {burst} {count} {user}"),
                    );
                    compared += 1 + blocks_of(cell, burst, count, user);
                }
            }
        }
    }
    compared
}

fn blocks_of(cell: u32, burst: u32, count: u32, user: u32) -> u32 {
    let mut compared = 0;
    for written in [0, 1, 3, 4, 63, 64, 255, 256, 257, 511, 512, 513, u32::MAX] {
        for length in [0, 1, 2, 3, 4, 5, 63, 64, 65, 100, 255, 256, 257, 511, 512, 513, 600] {
            block(MqBlockPlace { cell, burst, count, user, written }, length);
            compared += 1;
        }
    }
    compared
}

/// Every midamble in blocks of thrown lengths, each at the place that the one before handed back: joined, the midamble.
fn compare_cuts() -> u32 {
    let mut dice = Dice::new(1);
    let mut compared = 0;
    for (burst, count) in [(1, 4), (1, 8), (1, 16), (2, 3), (2, 6), (3, 4), (3, 8), (3, 16)] {
        for (cell, user) in users(count) {
            let mut whole = [0; 512];
            let length = library::midamble(cell, burst, count, user, &mut whole).value;
            let mut place = library::block_start(cell, burst, count, user).place;
            let mut joined = Vec::new();
            let longest = dice.one_of(&[5, 65, 101, 600]);
            while place.written < length {
                let (next, chips) = block(place, dice.below(longest) as usize);
                joined.extend(chips);
                place = next;
                compared += 1;
            }
            same(joined, whole[..length as usize].to_vec(), || {
                format!(
                    "blocks of {cell} {burst} {count} {user}, joined, and the midamble in one call"
                )
            });
        }
    }
    compared
}

pub fn compare() -> u32 {
    compare_places() + compare_cuts()
}

/// All cells and users.
fn starts(burst: u32, count: u32) -> Line {
    let library = move |&(cell, user): &(u32, u32)| library::block_start(cell, burst, count, user);
    Line::new("start of blocks", users(count).collect(), library, move |&(cell, user)| {
        plain::start(cell, burst, count, user)
    })
}

/// All cells and users, at places spread over the midamble that leave enough for a whole block.
fn places(burst: u32, count: u32, chips: u32) -> Vec<MqBlockPlace> {
    let last = code_of(burst).length - chips;
    users(count)
        .zip(0..)
        .map(|((cell, user), k)| (cell, user, 61 * k % (last + 1)))
        .map(|(cell, user, written)| MqBlockPlace { cell, burst, count, user, written })
        .collect()
}

/// Memory is not cleared between the calls.
fn full(what: String, burst: u32, count: u32, chips: u32) -> Line {
    let inputs = places(burst, count, chips);
    let length = chips as usize;
    let (mut ours, mut theirs) = ([0; 512], [0; 512]);
    let library =
        move |place: &MqBlockPlace| library::block(*place, black_box(&mut ours[..length]));
    Line::new(what, inputs, library, move |place| {
        plain::block(*place, black_box(&mut theirs[..length]))
    })
}

fn one((burst, count, chips): (u32, u32, u32)) -> Line {
    full(format!("block of {chips}, type {burst}"), burst, count, chips)
}

/// All cells and users, at the end of the midamble: nothing is written, and no table is fetched.
fn at_the_end(burst: u32, count: u32) -> Line {
    let length = code_of(burst).length;
    let end = move |(cell, user)| MqBlockPlace { cell, burst, count, user, written: length };
    let inputs = users(count).map(end).collect();
    let (mut ours, mut theirs) = ([0; 64], [0; 64]);
    let library = move |place: &MqBlockPlace| library::block(*place, black_box(&mut ours));
    Line::new("block at the end, type 1", inputs, library, move |place| {
        plain::block(*place, black_box(&mut theirs))
    })
}

/// Less the library's own copy of the row table.
fn by_digits((burst, count, chips): (u32, u32, u32)) -> Line {
    full(format!("type {burst}, block of {chips} (***)"), burst, count, chips)
        .less(own_copy_of(burst))
        .with_limit(&limits::BLOCK_BY_DIGITS)
}

pub fn lines() -> Vec<Line> {
    let mut lines = vec![starts(1, 16), at_the_end(1, 16)];
    lines.extend([(1, 16, 1), (1, 16, 64), (1, 16, 100), (1, 16, 512), (2, 6, 64)].map(one));
    lines.extend([(1, 16, 64), (1, 16, 100), (1, 16, 512), (2, 6, 64)].map(by_digits));
    lines
}

/// All cells and users: a midamble started and written in blocks of 64, beside the library's own in one call. A copy of
/// the row table is taken off for every block, none for the one call.
fn cut(burst: u32, count: u32) -> Line {
    let length = code_of(burst).length;
    let blocks = length / 64;
    let (mut ours, mut theirs) = ([0; 512], [0; 512]);
    let by_block = move |&(cell, user): &(u32, u32)| {
        let mut place = library::block_start(cell, burst, count, user).place;
        for block in black_box(&mut ours)[..length as usize].chunks_exact_mut(64) {
            place = library::block(place, block).place;
        }
        MqAnswer::giving(place.written)
    };
    let what = format!("type {burst}, start and {blocks} blocks");
    Line::new(what, users(count).collect(), by_block, move |&(cell, user)| {
        library::midamble(cell, burst, count, user, black_box(&mut theirs))
    })
    .less_copies(own_copy_of(burst), [blocks, 0])
    .with_limit(&limits::MIDAMBLE_IN_BLOCKS)
}

/// Whole midambles by the block, beside the library's in one call.
pub fn cuts() -> Vec<Line> {
    vec![cut(1, 16), cut(2, 6)]
}
