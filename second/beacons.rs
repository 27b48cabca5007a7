//! Document 01, "Beacon timeslots (clauses 5.3.4, 5.5)": which timeslots they are. (The rules (a) to (f) for booking in
//! them belong to the class book.)

use crate::refusals::{refuse_if, Answer};

/// "Case 1: timeslot k. Case 2: timeslots k and k + 8." Refusal 9.
pub fn beacon_timeslots(case: u32, k: u32) -> Answer<Vec<u32>> {
    refuse_if(case != 1 && case != 2, 9)?;
    refuse_if(case == 1 && k > 14, 9)?;
    refuse_if(case == 2 && k > 6, 9)?;
    Ok(if case == 1 { vec![k] } else { vec![k, k + 8] })
}

/// The timeslots, parted by blanks.
pub fn words(timeslots: Vec<u32>) -> String {
    timeslots.iter().map(u32::to_string).collect::<Vec<String>>().join(" ")
}
