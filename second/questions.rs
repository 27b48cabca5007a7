//! Random calls beside the class book's, for random lessons: each word is within the rules, but that some words of page
//! and read are too short or too long, that a few levels of pair and pairs lie just outside, at 0 and 2048, that a few
//! places of block lie above the midamble length, that some users of a midamble are not permitted under the count, and
//! that some numbers and samples of hear are wrong.

use crate::calls::MOST_SAMPLES;
use crate::dice::Dice;
use crate::midambles::{family, permitted_users};
use crate::rows::Rows;
use crate::samples::{call, copy, early, late, needed, noisy, together, turned, words};

/// A random call of chip, midamble, block, pair, pairs, hear, parts, at, beacon, indicator, page, read, owner. A hear
/// is rare, since it is long. There is no `help` in it: the two programs need not agree on its reply.
pub fn question(dice: &mut Dice, rows: &Rows) -> String {
    if dice.one_in(30) {
        return hear(dice, rows);
    }
    let ask = dice.pick_by_weight(&[
        (2, chip as fn(&mut Dice) -> String),
        (1, midamble),
        (3, block),
        (2, pair),
        (1, pairs),
        (2, parts),
        (4, at),
        (2, beacon),
        (3, indicator),
        (3, page),
        (3, read),
        (3, owner),
    ]);
    ask(dice)
}

/// CELL TYPE COUNT USER, and the midamble's length. The user is mostly one that the count permits, now and then any of
/// 0 to 17.
fn user_of_a_cell(dice: &mut Dice) -> (String, u32) {
    let cell = dice.below(128);
    let burst_type = dice.between(1, 3);
    let family = family(burst_type);
    let count = dice.pick(family.counts);
    let user =
        if dice.one_in(8) { dice.between(0, 17) } else { dice.pick(&permitted_users(count)) };
    (format!("{cell} {burst_type} {count} {user}"), family.midamble_length as u32)
}

fn chip(dice: &mut Dice) -> String {
    let (user, length) = user_of_a_cell(dice);
    format!("chip {user} {}", dice.between(1, length))
}

fn midamble(dice: &mut Dice) -> String {
    format!("midamble {}", user_of_a_cell(dice).0)
}

/// How many chips are written already: mostly any number within the rules, often one at the start or around the end,
/// now and then any at all.
fn place(dice: &mut Dice, length: u32) -> u32 {
    match dice.below(20) {
        0 => dice.number(),
        1..=5 => dice.pick(&[0, 0, 1, 63, 64, 65, 100, 164]),
        6..=9 => dice.pick(&[length - 64, length - 2, length - 1, length, length + 1]),
        _ => dice.between(0, length),
    }
}

/// How many bytes are lent where so many chips are left: none, what the card asks for, around a whole midamble, around
/// what is left, few, or any number at all.
fn length_of_block(dice: &mut Dice, left: u32) -> u32 {
    match dice.below(12) {
        0 => 0,
        1 | 2 => dice.pick(&[64, 100]),
        3 => dice.pick(&[255, 256, 257, 511, 512, 513]),
        4..=6 => dice.pick(&[left.saturating_sub(1), left, left + 1]),
        7 => dice.number(),
        8 => dice.between(0, 600),
        _ => dice.between(1, 20),
    }
}

fn block(dice: &mut Dice) -> String {
    let (user, length) = user_of_a_cell(dice);
    let place = place(dice, length);
    let left = length.saturating_sub(place);
    format!("block {user} {place} {}", length_of_block(dice, left))
}

/// A level: mostly any within the rules, now and then the lowest or the highest, or one just outside.
fn level(dice: &mut Dice) -> u32 {
    match dice.below(20) {
        0 => dice.pick(&[0, 2048]),
        1 => dice.pick(&[1, 2047]),
        _ => dice.between(1, 2047),
    }
}

fn pair(dice: &mut Dice) -> String {
    let (user, length) = user_of_a_cell(dice);
    let i = dice.between(1, length);
    format!("pair {user} {i} {}", level(dice))
}

fn pairs(dice: &mut Dice) -> String {
    let (user, _) = user_of_a_cell(dice);
    format!("pairs {user} {}", level(dice))
}

/// A clean copy of a user, mostly of one that the count permits, now and then of any; at a level of at most `highest`.
fn some_copy(
    dice: &mut Dice,
    rows: &Rows,
    [cell, burst_type, count]: [u32; 3],
    highest: u32,
) -> Vec<i64> {
    let last = 2 * family(burst_type).base_users as u32;
    let user =
        if dice.one_in(8) { dice.between(1, last) } else { dice.pick(&permitted_users(count)) };
    let between = dice.between(1, highest);
    let level = dice.pick(&[1, 2, between, between, between, highest]);
    copy(rows, cell, burst_type, user, level)
}

/// What is on the air: mostly one user, now and then two or nobody; some of it turned by a power of j, a little of it a
/// chip late or early, and more than half of it with noise.
fn received(dice: &mut Dice, rows: &Rows, numbers: [u32; 3]) -> Vec<i64> {
    let [_, burst_type, _] = numbers;
    let mut samples = match dice.below(16) {
        0 => vec![0; needed(burst_type)],
        1..=4 => {
            let one = some_copy(dice, rows, numbers, 1023);
            together(&one, &some_copy(dice, rows, numbers, 1023))
        }
        _ => some_copy(dice, rows, numbers, 2047),
    };
    for _ in 0..dice.pick(&[0, 0, 0, 1, 2, 3]) {
        samples = turned(&samples);
    }
    match dice.below(16) {
        0 => samples = late(&samples),
        1 => samples = early(&samples),
        _ => {}
    }
    let noise = dice.pick(&[0, 0, 0, 1, 30, 300, 2047]);
    noisy(dice, &samples, noise)
}

/// How many samples stand on the line: mostly as many as are read, else one less or more, too few, or more of them up
/// to just above the most.
fn number_of_samples(dice: &mut Dice, needed: usize) -> usize {
    let most = MOST_SAMPLES as u32;
    match dice.below(24) {
        0 => needed - 1,
        1 => needed + 1,
        2 => dice.place(needed),
        3 => dice.between(needed as u32, most) as usize,
        4 => dice.between(most - 1, most + 1) as usize,
        _ => needed,
    }
}

/// A row of samples that is mostly right; now and then some of them are at the edge or outside the rule, or the cell,
/// the type or the count is wrong.
fn hear(dice: &mut Dice, rows: &Rows) -> String {
    let burst_type = dice.between(1, 3);
    let mut numbers = [dice.below(128), burst_type, dice.pick(family(burst_type).counts)];
    let received = received(dice, rows, numbers);
    let number = number_of_samples(dice, received.len());
    let mut samples: Vec<i64> = received.into_iter().cycle().take(number).collect();
    if dice.one_in(8) {
        for _ in 0..dice.between(1, 3).min(number as u32) {
            let edges = [2047, -2047, 2048, -2048, 65536, -65536, 999999, 1000000];
            samples[dice.place(number)] = dice.pick(&edges);
        }
    }
    match dice.below(40) {
        0 => numbers[0] = dice.pick(&[128, 129, 255, 256, u32::MAX]),
        1 => numbers[1] = dice.pick(&[0, 4, 255, 257, u32::MAX]),
        2 => numbers[2] = dice.pick(&[0, 1, 2, 3, 4, 5, 6, 7, 8, 15, 16, 17, u32::MAX]),
        _ => {}
    }
    call(numbers, &words(&samples))
}

/// TYPE up|down FACTOR TFCI TPC.
fn burst(dice: &mut Dice) -> String {
    let tfci_bits = dice.pick(&[0, 4, 8, 16, 32]);
    if dice.one_in(2) {
        let burst_type = dice.between(1, 3);
        let factor = dice.pick(&[1, 2, 4, 8, 16]);
        let tpc_bits = dice.pick(&[0, 2]);
        format!("{burst_type} up {factor} {tfci_bits} {tpc_bits}")
    } else {
        let burst_type = dice.between(1, 2);
        let factor = dice.pick(&[1, 16]);
        format!("{burst_type} down {factor} {tfci_bits} 0")
    }
}

fn parts(dice: &mut Dice) -> String {
    format!("parts {}", burst(dice))
}

fn at(dice: &mut Dice) -> String {
    let burst = burst(dice);
    let chip = dice.below(2560);
    format!("at {burst} {chip}")
}

fn beacon(dice: &mut Dice) -> String {
    if dice.one_in(2) {
        format!("beacon 1 {}", dice.below(15))
    } else {
        format!("beacon 2 {}", dice.below(7))
    }
}

/// TYPE L, the indicators of a timeslot, and the bits of the burst.
fn pich(dice: &mut Dice) -> (String, u32, u32) {
    let (burst_type, carrying_bits) = dice.pick(&[(1, 240), (2, 272)]);
    let length = dice.pick(&[2, 4, 8]);
    (format!("{burst_type} {length}"), carrying_bits / (2 * length), carrying_bits + 4)
}

fn indicator(dice: &mut Dice) -> String {
    let (pich, indicators, _) = pich(dice);
    let frames = dice.between(1, 4);
    let number = dice.below(indicators * frames);
    format!("indicator {pich} {frames} {number}")
}

fn owner(dice: &mut Dice) -> String {
    let (pich, _, bits) = pich(dice);
    format!("owner {pich} {}", dice.below(bits))
}

/// A word's length: mostly the right one, else a little or much too short or too long.
fn length_of_word(dice: &mut Dice, right: u32) -> u32 {
    match dice.below(10) {
        0 => right - 1,
        1 => right + 1,
        2 => dice.between(1, right),
        3 => dice.between(right, 900),
        _ => right,
    }
}

fn page(dice: &mut Dice) -> String {
    let (pich, indicators, _) = pich(dice);
    let length = length_of_word(dice, indicators);
    format!("page {pich} {}", dice.binary_digits(length))
}

/// Bits that are all alike but for a few, so that indicators are off, on and torn.
fn read(dice: &mut Dice) -> String {
    let (pich, _, bits) = pich(dice);
    let length = length_of_word(dice, bits);
    let mut digits = dice.pick(&["0", "1"]).repeat(length as usize);
    if dice.one_in(4) {
        digits = dice.binary_digits(length);
    }
    for _ in 0..dice.below(12) {
        let place = dice.place(digits.len());
        let digit = dice.pick(&["0", "1"]);
        digits.replace_range(place..place + 1, digit);
    }
    format!("read {pich} {digits}")
}
