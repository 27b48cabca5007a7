//! Document 02, C-16, "Free codes at a glance": of a seat and a timeslot "a pattern of 16 bits, one for each leaf", the
//! direction and the number of bookings.
//!
//! "It must equal what the bookings themselves say": here it is read off them whenever it is asked for, and kept
//! nowhere.

use crate::book::{refuse_bad_timeslot, Book, Record, LEAVES};
use crate::refusals::Answer;
use crate::timeslots::Direction;

/// What a seat's bookings in a timeslot say.
#[derive(Clone, Copy, PartialEq, Debug)]
pub struct Summary {
    /// "A pattern of 16 bits, one for each leaf, set where a booking covers it", leaf 0 first.
    pub leaves: [bool; LEAVES as usize],
    /// "The direction, or that there is none."
    pub direction: Option<Direction>,
    /// "The number of bookings."
    pub count: usize,
}

impl Summary {
    /// `LEAVES up|down|none N`, as docs/LESSONS.md has it.
    pub fn words(&self) -> String {
        let leaves: String = self.leaves.iter().map(|set| if *set { '1' } else { '0' }).collect();
        let direction = self.direction.map_or("none", Direction::word);
        format!("{leaves} {direction} {}", self.count)
    }
}

impl Book {
    /// The summary of a seat and timeslot. "The screen asks one seat at a time, and sees nothing of another." Refusals
    /// 5, 12, 13, 14.
    pub fn summary(&self, seat: u32, timeslot: u32) -> Answer<Summary> {
        refuse_bad_timeslot(timeslot)?;
        let mut bookings: Vec<Record> = self.list(seat)?;
        bookings.retain(|held| held.timeslot == timeslot);
        let covered = |leaf| bookings.iter().any(|held| held.leaves().contains(&leaf));
        Ok(Summary {
            leaves: std::array::from_fn(|leaf| covered(leaf as u32)),
            // Where their directions differ, two bookings clash: the first one's is that of all.
            direction: bookings.first().map(|held| held.direction),
            count: bookings.len(),
        })
    }
}
