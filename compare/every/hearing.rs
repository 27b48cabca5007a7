//! Who is on the air. Of every cell, type and count: clean copies of every user, turned ones, noise, several users at
//! once, ties, silence, full scale, and rows that are not aligned. Then rows with a bad sample, of lengths around the
//! needed one, and the numbers just outside.

use super::LARGEST;
use crate::air::{add_noise, bad_samples, lent_as, needed, received, Cell, LARGEST_SAMPLE};
use crate::beside::Beside;
use second::dice::Dice;
use second::midambles::family;

/// Cells, types and counts of which more is asked.
const SOME: [[u32; 3]; 8] = [
    [0, 1, 16],
    [127, 1, 8],
    [64, 1, 4],
    [5, 2, 6],
    [127, 2, 3],
    [127, 3, 16],
    [1, 3, 8],
    [0, 3, 4],
];

pub fn run(both: &mut Beside) {
    let dice = &mut Dice::new(18);
    for cell in 0..=127 {
        for burst in 1..=3 {
            for count in family(burst).counts {
                let cell = &Cell::new([cell, burst, *count]);
                clean(both, cell);
                one_user(both, dice, cell);
                several_users(both, dice, cell);
                few_samples(both, dice, cell);
            }
        }
    }
    for numbers in SOME {
        let cell = &Cell::new(numbers);
        every_two(both, dice, cell);
        lengths(both, cell);
        places(both, cell);
    }
    numbers(both);
}

/// The row of pairs of a permitted user, at a level that changes from user to user.
fn card_row([cell, burst, count]: [u32; 3], user: u32) -> Vec<f32> {
    let level = 1 + (cell * 16 + user * 127 + burst * 5 + count) % 2047;
    let mut row = vec![0.0; needed(burst)];
    library::pairs(cell, burst, count, user, level, &mut row);
    row
}

/// Every user as the signal card gets it.
fn clean(both: &mut Beside, cell: &Cell) {
    for user in &cell.users {
        both.hear("hear a clean copy", cell.numbers, &card_row(cell.numbers, *user));
    }
}

/// One user, now this and now that: turned, off by one chip and by a step of the shifts, noisy, at full scale. Noise
/// alone. And somebody whom the count need not permit.
fn one_user(both: &mut Beside, dice: &mut Dice, cell: &Cell) {
    let user = dice.pick(&cell.users);
    let level = dice.between(1, 2047) as i32;
    for turn in 1..4 {
        let row = received(dice, &cell.alone(user, turn, level));
        both.hear("hear a turned copy", cell.numbers, &row);
    }
    for chips in [1, family(cell.numbers[1]).step] {
        let mut early = cell.alone(user, 0, level);
        let mut late = early.clone();
        early.rotate_left(2 * chips);
        late.rotate_right(2 * chips);
        late[..2 * chips].fill(0);
        both.hear("hear a copy too early", cell.numbers, &received(dice, &early));
        both.hear("hear a copy too late", cell.numbers, &received(dice, &late));
    }
    let noise = dice.pick(&[1, 30, 700, 2047]);
    let mut noisy = cell.alone(user, dice.below(4), dice.between(1, 300) as i32);
    add_noise(dice, &mut noisy, noise);
    both.hear("hear a noisy copy", cell.numbers, &received(dice, &noisy));
    add_noise(dice, &mut noisy, 100_000);
    both.hear("hear noise", cell.numbers, &received(dice, &noisy));
    // Both parts of each sample at their largest, and both sums.
    let turn = dice.below(4);
    let mut full = cell.alone(user, turn, LARGEST_SAMPLE);
    cell.add(&mut full, user, turn + 1, LARGEST_SAMPLE);
    both.hear("hear full scale", cell.numbers, &received(dice, &full));
    let other = cell.alone(cell.anybody(dice), 0, level);
    both.hear("hear anybody", cell.numbers, &received(dice, &other));
}

/// Two at once, at levels that differ, and at equal ones: then their sums of squares are the same, whoever they are and
/// however turned. The same with a sample off by one or two, where one is just ahead. And all at once.
fn several_users(both: &mut Beside, dice: &mut Dice, cell: &Cell) {
    let (one, other) = (dice.pick(&cell.users), dice.pick(&cell.users));
    let level = dice.between(1, 1023) as i32;
    let mut air = cell.alone(one, dice.below(4), level);
    let mut tied = air.clone();
    cell.add(&mut tied, other, dice.below(4), level);
    both.hear("hear two alike", cell.numbers, &received(dice, &tied));
    for _ in 0..3 {
        let place = dice.place(tied.len());
        tied[place] += dice.pick(&[-2, -1, 1, 2]);
        both.hear("hear two almost alike", cell.numbers, &received(dice, &tied));
    }
    cell.add(&mut air, other, dice.below(4), dice.between(1, 1023) as i32);
    both.hear("hear two", cell.numbers, &received(dice, &air));
    let mut all = cell.silence();
    for user in &cell.users {
        cell.add(&mut all, *user, dice.below(4), 127);
    }
    both.hear("hear all", cell.numbers, &received(dice, &all));
}

/// Silence; one sample, which is the same to every user; a few small ones, where many sums are the same or zero; and two
/// that take each other away, a period apart: to every user their chips are the same.
fn few_samples(both: &mut Beside, dice: &mut Dice, cell: &Cell) {
    let silence = cell.silence();
    both.hear("hear silence", cell.numbers, &received(dice, &silence));
    let mut one = silence.clone();
    one[dice.place(silence.len())] = dice.pick(&[1, -1, 2047, -2047, 1000]);
    both.hear("hear one sample", cell.numbers, &received(dice, &one));
    for samples in [2, 2, 4, 9] {
        let mut few = silence.clone();
        for _ in 0..samples {
            few[dice.place(silence.len())] = dice.pick(&[3, -3]);
        }
        both.hear("hear a few samples", cell.numbers, &received(dice, &few));
    }
    let period = 2 * family(cell.numbers[1]).period;
    let place = dice.place(silence.len() - period);
    let mut away = silence;
    away[place] = dice.between(1, 2047) as i32;
    away[place + period] = -away[place];
    both.hear("hear samples that take each other away", cell.numbers, &received(dice, &away));
}

/// Every two users alike.
fn every_two(both: &mut Beside, dice: &mut Dice, cell: &Cell) {
    for (n, one) in cell.users.iter().enumerate() {
        for other in &cell.users[..n] {
            let level = dice.between(1, 1023) as i32;
            let mut air = cell.alone(*one, dice.below(4), level);
            cell.add(&mut air, *other, dice.below(4), level);
            both.hear("hear two alike", cell.numbers, &received(dice, &air));
        }
    }
}

/// Lent rows of lengths around the needed one, with floats of all kinds behind what is read; a good one, and one with a
/// bad sample.
fn lengths(both: &mut Beside, cell: &Cell) {
    let good = card_row(cell.numbers, cell.users[1]);
    let mut bad = good.clone();
    bad[0] = 0.5;
    let around = good.len() - 3..=good.len() + 3;
    for length in around.chain([0, 1, 2, good.len() / 2, 2 * good.len()]) {
        both.hear("hear a row", cell.numbers, &lent_as(&good, length));
        both.hear("hear a bad row", cell.numbers, &lent_as(&bad, length));
    }
}

/// Each bad sample at the first places, in the middle, at the last places that are read and the first that are not; and
/// some bad sample at every place.
fn places(both: &mut Beside, cell: &Cell) {
    let row = card_row(cell.numbers, cell.users[2]);
    let end = row.len();
    let bad = bad_samples();
    for (n, sample) in bad.iter().enumerate() {
        for place in [0, 1, 100 + 7 * n, end / 2, end - 2, end - 1, end, end + 1] {
            bad_at(both, cell, &row, place, *sample);
        }
    }
    for place in 0..end {
        bad_at(both, cell, &row, place, bad[(place + place / 2) % bad.len()]);
    }
}

fn bad_at(both: &mut Beside, cell: &Cell, row: &[f32], place: usize, sample: f32) {
    let mut row = lent_as(row, row.len() + 2);
    row[place] = sample;
    both.hear(&format!("hear a bad sample at {place}"), cell.numbers, &row);
}

/// The numbers on both sides of every rule, each wrong by itself and with every other; with a good row, one that has a
/// bad sample, and both of them too short.
fn numbers(both: &mut Beside) {
    for cell in [0, 127, 128, 129, LARGEST] {
        for burst in [0, 1, 2, 3, 4, LARGEST] {
            let good = card_row(if burst == 2 { [5, 2, 6] } else { [5, 1, 16] }, 4);
            let mut bad = good.clone();
            bad[good.len() - 2] = f32::NAN;
            for count in (0..=17).chain([LARGEST]) {
                for row in [&good, &bad] {
                    both.hear("hear a row", [cell, burst, count], row);
                    both.hear("hear a short row", [cell, burst, count], &row[..row.len() - 1]);
                }
            }
        }
    }
}
