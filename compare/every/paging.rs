//! Every indicator, the owner of every bit; pages written and read, in lent memory of every length and of those around
//! the needed ones, there and back, and with every single bit turned over.

use super::LARGEST;
use crate::beside::Beside;
use second::every::{bit, setting};

pub fn run(both: &mut Beside) {
    for burst in 0..=4 {
        for length in [0, 2, 3, 4, 8, 16] {
            places(both, burst, length);
            pages(both, [burst, length]);
            readings(both, [burst, length]);
            there_and_back(both, [burst, length]);
        }
    }
}

/// No frame has more than 68 indicators, no burst more than 276 bits.
fn places(both: &mut Beside, burst: u32, length: u32) {
    for frames in 0..=5 {
        for number in (0..=68 * frames + 1).chain([LARGEST]) {
            both.indicator([burst, length, frames, number]);
        }
    }
    for bit in (0..=277).chain([LARGEST]) {
        both.owner([burst, length, bit]);
    }
}

/// Setting q is 0, 1 or 2: what is not 0 is on.
fn settings(count: usize, length: u32) -> Vec<u8> {
    (0..count).map(|q| setting(q, length) as u8).collect()
}

fn pages(both: &mut Beside, kind: [u32; 2]) {
    for count in 0..=69 {
        for room in [0, 243, 244, 245, 275, 276, 277, 300] {
            both.page(kind, &settings(count, kind[1]), room);
        }
    }
}

fn readings(both: &mut Beside, kind: [u32; 2]) {
    for count in [0, 243, 244, 245, 275, 276, 277, 300] {
        let bits: Vec<u8> = (0..count).map(|n| bit(n) as u8).collect();
        for room in 0..=69 {
            both.read(kind, &bits, room);
        }
    }
}

/// A page is read back as it was written, and with each of its bits turned over; and the same of pages with a single
/// indicator on.
fn there_and_back(both: &mut Beside, kind: [u32; 2]) {
    let page = both.page(kind, &settings(68, kind[1]), 300);
    both.read(kind, &page, 68);
    for turned in 0..276 {
        let mut torn = page.clone();
        torn[turned] = u8::from(torn[turned] == 0);
        both.read(kind, &torn, 68);
    }
    for on in 0..68 {
        let mut settings = [0; 68];
        settings[on] = 255;
        let page = both.page(kind, &settings, 300);
        both.read(kind, &page, 68);
    }
}
