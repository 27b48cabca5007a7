//! Midambles by the block: the same tests, and each digit read once from wherever a block starts.

use super::midambles::{code_of, fill_by_digits, fill_row, shift, user_refusal};
use library::{MqBlock, MqBlockPlace, MqBlockStart};

#[inline(never)]
pub fn start(cell: u32, burst: u32, count: u32, user: u32) -> MqBlockStart {
    let refusal = user_refusal(cell, burst, count, user);
    if refusal != 0 {
        return MqBlockStart { refusal, place: MqBlockPlace::default() };
    }
    MqBlockStart { refusal, place: MqBlockPlace { cell, burst, count, user, written: 0 } }
}

fn refusal_at(place: MqBlockPlace) -> u32 {
    let n = user_refusal(place.cell, place.burst, place.count, place.user);
    if n != 0 {
        return n;
    }
    if place.written > code_of(place.burst).length {
        return 23;
    }
    0
}

#[inline(never)]
pub fn block(place: MqBlockPlace, out: &mut [u8]) -> MqBlock {
    let refusal = refusal_at(place);
    if refusal != 0 {
        return MqBlock { refusal, written: 0, place };
    }
    let c = code_of(place.burst);
    let chips = out.len().min((c.length - place.written) as usize);
    let by = shift(&c, place.user) + place.written;
    fill_row(place.cell, place.burst, by, chips, out, fill_by_digits);
    let written = chips as u32;
    MqBlock { refusal, written, place: MqBlockPlace { written: place.written + written, ..place } }
}
