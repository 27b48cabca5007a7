//! Parts of a timeslot, what lies at a chip, and beacon timeslots.

use library::{MqBeacons, MqParts, MqPlace};

/// Burst type by field: data 1, midamble, data 2, guard.
const FIELDS: [[u32; 4]; 3] = [[976, 512, 976, 96], [1104, 256, 1104, 96], [976, 512, 880, 192]];
const DOWN: u32 = 1;

fn refusal(burst: u32, direction: u32, factor: u32, tfci: u32, tpc: u32) -> u32 {
    let down = direction == DOWN;
    if !(1..=3).contains(&burst) {
        return 2;
    }
    if direction > DOWN
        || !matches!(factor, 1 | 2 | 4 | 8 | 16)
        || (down && !matches!(factor, 1 | 16))
    {
        return 6;
    }
    if down && burst == 3 {
        return 7;
    }
    if !matches!(tfci, 0 | 4 | 8 | 16 | 32) || !matches!(tpc, 0 | 2) || (down && tpc == 2) {
        return 8;
    }
    0
}

/// Chips of a control symbol.
fn control(direction: u32, factor: u32) -> u32 {
    if direction == DOWN {
        factor
    } else {
        16
    }
}

/// The lengths of the seven parts in time order; nothing is refused.
fn lengths(burst: u32, direction: u32, factor: u32, tfci: u32, tpc: u32) -> [u32; 7] {
    let [data1, midamble, data2, guard] = FIELDS[burst as usize - 1];
    let half_tfci = tfci / 4 * control(direction, factor);
    let tpc = tpc / 2 * control(direction, factor);
    [data1 - half_tfci, half_tfci, midamble, tpc, half_tfci, data2 - tpc - half_tfci, guard]
}

#[inline(never)]
pub fn parts(burst: u32, direction: u32, factor: u32, tfci: u32, tpc: u32) -> MqParts {
    let refusal = refusal(burst, direction, factor, tfci, tpc);
    if refusal != 0 {
        return MqParts { refusal, ..MqParts::default() };
    }
    let length = lengths(burst, direction, factor, tfci, tpc);
    let mut start = [0; 7];
    for p in 1..7 {
        start[p] = start[p - 1] + length[p - 1];
    }
    let bits = [length[0] / factor * 2, length[5] / factor * 2];
    MqParts { refusal, start, length, bits }
}

#[inline(never)]
pub fn at(burst: u32, direction: u32, factor: u32, tfci: u32, tpc: u32, chip: u32) -> MqPlace {
    let mut refusal = refusal(burst, direction, factor, tfci, tpc);
    if refusal == 0 && chip > 2559 {
        refusal = 10;
    }
    if refusal != 0 {
        return MqPlace { refusal, ..MqPlace::default() };
    }
    let mut offset = chip;
    let mut part = 1;
    for length in lengths(burst, direction, factor, tfci, tpc) {
        if offset < length {
            break;
        }
        offset -= length;
        part += 1;
    }
    let number = match part {
        1 | 6 => offset / factor,
        3 | 7 => offset,
        _ => offset / control(direction, factor),
    };
    MqPlace { refusal, part, number }
}

#[inline(never)]
pub fn beacon(sync: u32, k: u32) -> MqBeacons {
    match sync {
        1 if k <= 14 => MqBeacons { refusal: 0, count: 1, first: k, second: 0 },
        2 if k <= 6 => MqBeacons { refusal: 0, count: 2, first: k, second: k + 8 },
        _ => MqBeacons { refusal: 9, ..MqBeacons::default() },
    }
}
