//! Random bookings, cancels and timeslots to be summed up, for random lessons.

use crate::book::{Record, Settings, MOST_OF_A_SEAT};
use crate::dice::Dice;
use crate::midambles::permitted_users;
use crate::timeslots::{Direction, LAST_TIMESLOT};

/// A timeslot, and whether it is one of the beacons. Of a hundred, so many aim at a beacon.
fn some_timeslot(dice: &mut Dice, at_beacons: u32, beacons: &[u32]) -> (u32, bool) {
    let timeslot =
        if dice.percent(at_beacons) { dice.pick(beacons) } else { dice.between(0, LAST_TIMESLOT) };
    (timeslot, beacons.contains(&timeslot))
}

/// The booking with control bits that are within the rules.
fn with_control_bits(dice: &mut Dice, record: Record) -> Record {
    let tpc_bits = match record.direction {
        Direction::Up => dice.pick(&[0, 2]),
        Direction::Down => 0,
    };
    Record { tfci_bits: dice.pick(&[0, 0, 4, 8, 16, 32]), tpc_bits, ..record }
}

/// A factor within the rules; mostly 16, so that a timeslot takes many bookings.
fn small_code_factor(dice: &mut Dice, direction: Direction) -> u32 {
    match direction {
        Direction::Down => dice.pick_by_weight(&[(20, 16), (1, 1)]),
        Direction::Up => dice.pick_by_weight(&[(20, 16), (6, 8), (3, 4), (1, 2), (1, 1)]),
    }
}

/// A burst type that lies beside this booking in its timeslot and direction: 1 or 3 beside 1 and 3 in uplink, and
/// otherwise the same.
fn type_beside(dice: &mut Dice, there: &Record) -> u32 {
    match (there.direction, there.burst_type) {
        (Direction::Up, 1 | 3) => dice.pick(&[1, 3]),
        (_, burst_type) => burst_type,
    }
}

/// A booking that goes by direction and burst type of what the seat holds in the timeslot, and by some of the beacon
/// rule; it may be refused all the same.
pub fn aimed(dice: &mut Dice, at_beacons: u32, settings: Settings, held: &[Record]) -> Record {
    let (timeslot, beacon) = some_timeslot(dice, at_beacons, &settings.beacons());
    let (mut direction, mut burst_type) = dice.pick(&[
        (Direction::Down, 1),
        (Direction::Down, 2),
        (Direction::Up, 1),
        (Direction::Up, 2),
        (Direction::Up, 3),
    ]);
    if beacon {
        (direction, burst_type) = (Direction::Down, 1);
    }
    if let Some(there) = held.iter().find(|there| there.timeslot == timeslot) {
        (direction, burst_type) = (there.direction, type_beside(dice, there));
    }
    let crowded = held.len() > MOST_OF_A_SEAT / 2;
    let factor = if crowded { 16 } else { small_code_factor(dice, direction) };
    let index = dice.between(1, factor);
    let user = if beacon && (factor, index) == (16, 1) {
        1
    } else {
        dice.pick(&permitted_users(settings.count(burst_type)))
    };
    let record =
        Record { timeslot, direction, burst_type, factor, index, user, tfci_bits: 0, tpc_bits: 0 };
    with_control_bits(dice, record)
}

/// The booking with any user on both sides of the counts' rules, permitted under the seat's count or not.
pub fn with_any_user(dice: &mut Dice, record: Record) -> Record {
    let last = if record.burst_type == 2 { 7 } else { 17 };
    Record { user: dice.between(0, last), ..record }
}

/// A booking made without looking at what the seat holds.
pub fn blind(dice: &mut Dice, at_beacons: u32, beacons: &[u32]) -> Record {
    let (timeslot, beacon) = some_timeslot(dice, at_beacons, beacons);
    let direction = dice.pick(&[Direction::Up, Direction::Down]);
    let down = direction == Direction::Down;
    let factor = if down && !dice.one_in(10) {
        dice.pick(&[1, 16, 16])
    } else {
        dice.pick(&[1, 2, 4, 8, 16, 16])
    };
    let mut record = Record {
        timeslot,
        direction,
        burst_type: dice.pick(&[1, 1, 2, 3]),
        factor,
        index: dice.between(1, factor),
        user: dice.between(1, 6),
        tfci_bits: 0,
        tpc_bits: 0,
    };
    if record.burst_type != 2 && dice.one_in(2) {
        record.user = dice.between(1, 16);
    }
    if beacon && dice.one_in(2) {
        record = near_the_beacon_rule(dice, record);
    }
    with_control_bits(dice, record)
}

/// A downlink booking of type 1 with the codes and users that the beacon rule names, and their neighbours.
fn near_the_beacon_rule(dice: &mut Dice, record: Record) -> Record {
    let (factor, index) = dice.pick(&[(16, 1), (16, 1), (16, 2), (16, 9), (16, 16), (1, 1)]);
    Record {
        direction: Direction::Down,
        burst_type: 1,
        factor,
        index,
        user: dice.pick(&[1, 1, 2, 3, 8, 9, 10, 11]),
        ..record
    }
}

/// Timeslot, factor and index of a cancel: mostly those of a booking that the seat holds, now and then those of a code
/// that covers it or is covered by it.
pub fn to_cancel(dice: &mut Dice, held: &[Record]) -> [u32; 3] {
    if held.is_empty() || dice.one_in(15) {
        let factor = dice.pick(&[1, 2, 4, 8, 16]);
        return [dice.between(0, LAST_TIMESLOT), factor, dice.between(1, factor)];
    }
    let Record { timeslot, factor, index, .. } = dice.pick(held);
    if factor > 1 && dice.one_in(20) {
        [timeslot, factor / 2, index.div_ceil(2)]
    } else if factor < 16 && dice.one_in(10) {
        [timeslot, factor * 2, index * 2 - 1]
    } else {
        [timeslot, factor, index]
    }
}

/// Timeslot of a summary: often one in which the seat holds a booking, else any; now and then one that is none.
pub fn to_sum_up(dice: &mut Dice, held: &[Record]) -> u32 {
    match dice.below(20) {
        0 => dice.pick(&[LAST_TIMESLOT + 1, LAST_TIMESLOT + 2, u32::MAX]),
        1..=12 if !held.is_empty() => dice.pick(held).timeslot,
        _ => dice.between(0, LAST_TIMESLOT),
    }
}
