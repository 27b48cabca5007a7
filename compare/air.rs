//! What is on the air: rows of received samples for `hear`, made of midambles, noise and single samples. They ask, and
//! hold no answer.

use crate::beside::lent_floats;
use second::dice::Dice;
use second::midambles::{family, permitted_users};

/// The largest sample.
pub const LARGEST_SAMPLE: i32 = 2047;

/// What is no sample, by its bits: fractions, whole numbers outside the rule, infinities, and NaNs of both signs, quiet
/// and signalling.
const BAD: [u32; 36] = [
    0x3F00_0000, // 0.5
    0xBF00_0000, // -0.5
    0x3DCC_CCCD, // 0.1
    0x3F7F_FFFF, // the last before 1
    0x3F80_0001, // the first behind 1
    0x44FF_D000, // 2046.5
    0x44FF_E001, // the first behind 2047
    0x44FF_F000, // 2047.5
    0xC4FF_E001,
    0xC4FF_F000,
    0x0000_0001, // the least above zero
    0x8000_0001,
    0x0001_16C2, // 1e-40
    0x0080_0000, // the least that is normal
    0x4500_0000, // 2048
    0xC500_0000, // -2048
    0x4500_1000, // 2049
    0x4700_0000, // 2 to the power 15
    0x4780_0000, // 16
    0x4B80_0000, // 24
    0x4F00_0000, // 31
    0xCF00_0000,
    0x4F80_0000, // 32
    0x4F80_0001, // and 512 more
    0x5F00_0000, // 63
    0xDF00_0000,
    0x5F80_0000, // 64
    0x7F7F_FFFF, // the largest of all
    0xFF7F_FFFF,
    0x7F80_0000, // infinity
    0xFF80_0000,
    0x7FC0_0000, // NaNs
    0xFFC0_0000,
    0x7F80_0001,
    0xFFBF_FFFF,
    0x7FFF_FFFF,
];

pub fn bad_samples() -> Vec<f32> {
    BAD.iter().map(|bits| f32::from_bits(*bits)).collect()
}

/// How many floats are read, also where the type is none.
pub fn needed(burst: u32) -> usize {
    2 * family(burst).midamble_length
}

/// A cell, type and count as they are asked, and what its users send.
pub struct Cell {
    pub numbers: [u32; 3],
    /// Those that the count permits.
    pub users: Vec<u32>,
    /// Of all users, whatever the count permits, user 1 first.
    midambles: Vec<Vec<u8>>,
}

impl Cell {
    pub fn new(numbers: [u32; 3]) -> Cell {
        let [cell, burst, count] = numbers;
        let all = if burst == 2 { 6 } else { 16 };
        let sent = |user| {
            let mut chips = vec![0; family(burst).midamble_length];
            library::midamble(cell, burst, all, user, &mut chips);
            chips
        };
        Cell { numbers, users: permitted_users(count), midambles: (1..=all).map(sent).collect() }
    }

    /// A user of the cell, permitted or not.
    pub fn anybody(&self, dice: &mut Dice) -> u32 {
        1 + dice.place(self.midambles.len()) as u32
    }

    pub fn silence(&self) -> Vec<i32> {
        vec![0; needed(self.numbers[1])]
    }

    /// A user's midamble at a level, turned by that power of j, is heard besides.
    pub fn add(&self, air: &mut [i32], user: u32, turn: u32, level: i32) {
        let turned = [(level, 0), (0, level), (-level, 0), (0, -level)];
        for (pair, power) in air.chunks_mut(2).zip(&self.midambles[user as usize - 1]) {
            let (re, im) = turned[(u32::from(*power) + turn) as usize % 4];
            pair[0] += re;
            pair[1] += im;
        }
    }

    /// A user's midamble and nothing else.
    pub fn alone(&self, user: u32, turn: u32, level: i32) -> Vec<i32> {
        let mut air = self.silence();
        self.add(&mut air, user, turn, level);
        air
    }
}

/// Noise besides, of at most so much.
pub fn add_noise(dice: &mut Dice, air: &mut [i32], most: i32) {
    for sample in air {
        *sample += dice.below(2 * most as u32 + 1) as i32 - most;
    }
}

/// The samples as they are received: none beyond the largest, and a zero is now a zero and now a minus zero.
pub fn received(dice: &mut Dice, air: &[i32]) -> Vec<f32> {
    let float = |sample: &i32| match (*sample).clamp(-LARGEST_SAMPLE, LARGEST_SAMPLE) {
        0 if dice.one_in(2) => -0.0,
        sample => sample as f32,
    };
    air.iter().map(float).collect()
}

/// A row of another length: cut, or with floats of all kinds behind it.
pub fn lent_as(row: &[f32], length: usize) -> Vec<f32> {
    let mut lent = lent_floats(length);
    let kept = length.min(row.len());
    lent[..kept].copy_from_slice(&row[..kept]);
    lent
}
