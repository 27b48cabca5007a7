//! Every question about a timeslot and every chip of each, a direction that is neither included; every beacon timeslot.

use super::LARGEST;
use crate::beside::{place, Beside};

pub fn run(both: &mut Beside) {
    for burst in [0, 1, 2, 3, 4, LARGEST] {
        for direction in [0, 1, 2, LARGEST] {
            for factor in [0, 1, 2, 3, 4, 8, 16, 32] {
                for tfci in [0, 2, 4, 5, 8, 16, 32, 64] {
                    for tpc in [0, 1, 2] {
                        every_chip(both, [burst, direction, factor, tfci, tpc]);
                    }
                }
            }
        }
    }
    for case in [0, 1, 2, 3, LARGEST] {
        for k in (0..=16).chain([LARGEST]) {
            both.beacon(case, k);
        }
    }
}

fn every_chip(both: &mut Beside, numbers: [u32; 5]) {
    match both.parts(numbers) {
        Ok(slot) => {
            for chip in 0..2560 {
                both.at_is(numbers, chip, place(Ok(slot.chips[chip as usize])));
            }
        }
        Err(_) => (0..2560).for_each(|chip| both.at(numbers, chip)),
    }
    both.at(numbers, 2560);
    both.at(numbers, LARGEST);
}
