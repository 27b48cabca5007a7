//! The inside of a caller's book, which is opaque in include/mqarbset.h: known here, so that it can be damaged.

use library::{MqBook, BOOK_BYTES};
use second::dice::Dice;

const SEAT_BYTES: usize = 402;
const SETTINGS_BYTES: usize = 7;
const BOOKING_BYTES: usize = 8;
const PLACES: usize = 40;
const SLOT_BYTES: usize = 5;
const TIMESLOTS: usize = 15;

/// Where these stand in a seat, whose first byte says whether it is open.
const LONG_COUNT: usize = 4;
const SHORT_COUNT: usize = 5;

/// Where these stand in a booking, whose first byte is the timeslot.
const BURST_TYPE: usize = 2;
const USER: usize = 5;

/// Where the byte of a seat that says whether it is open stands; its settings and its count follow.
fn seat_place(seat: usize) -> usize {
    SEAT_BYTES * seat
}

/// Where a booking stands.
fn booking_place(seat: usize, place: usize) -> usize {
    seat_place(seat) + SETTINGS_BYTES + BOOKING_BYTES * place
}

/// Where the summary of a timeslot stands, behind the seat's bookings.
fn slot_place(seat: usize, timeslot: usize) -> usize {
    booking_place(seat, PLACES) + SLOT_BYTES * timeslot
}

/// Where the bytes of all summaries stand.
pub fn summary_bytes() -> impl Iterator<Item = usize> {
    (0..16).flat_map(|seat| slot_place(seat, 0)..slot_place(seat, TIMESLOTS))
}

/// What a seat's bookings say of its timeslots, put down again: only what else is asked of a book can then refuse it.
fn sum_again(b: &mut MqBook, seat: usize) {
    b.0[slot_place(seat, 0)..slot_place(seat, TIMESLOTS)].fill(0);
    for place in 0..b.0[seat_place(seat) + 6] as usize {
        let booking = booking_place(seat, place);
        let [timeslot, direction, burst, factor, index] =
            [0, 1, 2, 3, 4].map(|byte| b.0[booking + byte]);
        let leaves = 16 / factor as u32;
        let mask = ((1u32 << leaves) - 1) << ((index as u32 - 1) * leaves);
        let slot = slot_place(seat, timeslot as usize);
        b.0[slot] |= mask as u8;
        b.0[slot + 1] |= (mask >> 8) as u8;
        b.0[slot + 2] = b.0[slot + 2].max(1 + direction);
        b.0[slot + 3] += 1;
        b.0[slot + 4] |= (burst == 2) as u8;
    }
}

/// A copy of a book that surely breaks its conditions.
pub fn broken(dice: &mut Dice, whole: &MqBook) -> MqBook {
    let mut b = *whole;
    let seat = dice.place(16);
    let start = seat_place(seat);
    let (live, held) = (b.0[start] == 1, b.0[start + 6] as usize);
    let (first, second) = (booking_place(seat, 0), booking_place(seat, 1));
    let last = booking_place(seat, PLACES - 1);
    let timeslot = |place| b.0[booking_place(seat, place)];
    let together = (1..held).find(|&place| timeslot(place) == timeslot(place - 1)).unwrap_or(held);
    match dice.below(15) {
        0 => b.0 = [255; BOOK_BYTES],
        // neither open nor closed
        1 => b.0[start] = 2 + dice.below(254) as u8,
        // more bookings than a seat may hold
        2 => b.0[start + 6] = 41 + dice.below(215) as u8,
        // neither up nor down
        3 => b.0[booking_place(seat, dice.place(PLACES)) + 1] = 2 + dice.below(254) as u8,
        // not blank behind the bookings
        4 if held < PLACES => b.0[last + dice.place(BOOKING_BYTES)] = 1 + dice.below(255) as u8,
        // a closed seat that has a cell; an open one whose cell is none
        5 if !live => b.0[start + 1] = 1 + dice.below(255) as u8,
        6 if live => b.0[start + 1] = 128 + dice.below(128) as u8,
        // out of order; twice the same
        7 if held >= 2 => {
            for byte in 0..BOOKING_BYTES {
                b.0.swap(first + byte, second + byte);
            }
        }
        8 if held >= 2 => {
            b.0.copy_within(first..first + BOOKING_BYTES, second);
            sum_again(&mut b, seat);
        }
        // exactly one of two in a timeslot is type 2
        9 if together < held => {
            let booking = booking_place(seat, together);
            b.0[booking + BURST_TYPE] = if b.0[booking + BURST_TYPE] == 2 { 1 } else { 2 };
            b.0[booking + USER] = 3;
            sum_again(&mut b, seat);
        }
        // a count that is none: 0 is left, or the long one is a short code's, or the short one is 4
        10 if live => b.0[start + LONG_COUNT] = dice.pick(&[0, 3, 5, 6, 7, 12, 17, 255]),
        11 if live => b.0[start + SHORT_COUNT] = dice.pick(&[0, 1, 2, 4, 5, 7, 8, 16]),
        // a user that its seat's count does not permit
        12 if held >= 1 && b.0[first + BURST_TYPE] == 2 => {
            b.0[start + SHORT_COUNT] = 3;
            b.0[first + USER] = dice.pick(&[4, 5, 6]);
        }
        12 if held >= 1 => {
            b.0[start + LONG_COUNT] = 4;
            b.0[first + USER] = dice.pick(&[2, 4, 6, 8, 9, 11, 16]);
        }
        // a summary that says something else: another byte, or what another timeslot says where that differs
        13 => {
            let place = slot_place(seat, dice.place(TIMESLOTS)) + dice.place(SLOT_BYTES);
            b.0[place] ^= 1 + dice.below(255) as u8;
        }
        14 => {
            let (from, to) = (dice.place(TIMESLOTS), dice.place(TIMESLOTS));
            let from = slot_place(seat, from);
            let to = slot_place(seat, to);
            b.0.copy_within(from..from + SLOT_BYTES, to);
            if b.0 == whole.0 {
                b.0[to] ^= 1;
            }
        }
        // no k
        _ => b.0[start + 3] = 15 + dice.below(241) as u8,
    }
    b
}
