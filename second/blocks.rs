//! Document 02, C-15, "Midambles by the block": "a form that starts on a cell, type, count and user, then fills one
//! lent block after another and says how many chips were written".

use crate::midambles::{family, refusals_1_to_4, whole_midamble};
use crate::refusals::{refuse_if, Answer};
use crate::rows::Rows;

/// A place in a midamble: whose midamble it is, and the place, "counted in chips already written". Any numbers may be
/// in it, since a block is handed one.
#[derive(Clone, Copy, Debug, PartialEq, Eq)]
pub struct Place {
    pub cell: u32,
    pub burst_type: u32,
    pub count: u32,
    pub user: u32,
    pub written: u32,
}

/// The form "starts on a cell, type, count and user", with no chip written. "Refusals: 1 to 4 at the start".
pub fn start(cell: u32, burst_type: u32, count: u32, user: u32) -> Answer<Place> {
    refusals_1_to_4(cell, burst_type, count, user)?;
    Ok(Place { cell, burst_type, count, user, written: 0 })
}

/// The chips behind the place, all that are not written yet. Refusals 1 to 4, "the same in a block whose handed-in
/// cell, type, count or user breaks them, and after those 23 where the place, counted in chips already written, is
/// above the midamble length".
fn chips_left(rows: &Rows, place: Place) -> Answer<Vec<u8>> {
    let Place { cell, burst_type, count, user, written } = place;
    // Memory of this program's own, as long as a midamble: a lent block may have any length.
    let mut chips = vec![0; family(burst_type).midamble_length];
    whole_midamble(rows, cell, burst_type, count, user, &mut chips)?;
    refuse_if(written as usize > chips.len(), 23)?;
    Ok(chips[written as usize..].to_vec())
}

/// "Fills one lent block after another and says how many chips were written": one chip after the other as long as block
/// and midamble have one left, and the place behind them. So "a block of length 0 writes none and keeps the place", and
/// "after the last chip each block writes none". "A refused block writes nothing", and its place is the one that was
/// handed in.
pub fn block(rows: &Rows, place: Place, memory: &mut [u8]) -> (Answer<usize>, Place) {
    let chips = match chips_left(rows, place) {
        Ok(chips) => chips,
        Err(number) => return (Err(number), place),
    };
    let mut written = 0;
    let mut behind = place;
    for (byte, chip) in memory.iter_mut().zip(chips) {
        *byte = chip;
        written += 1;
        behind.written += 1;
    }
    (Ok(written), behind)
}
