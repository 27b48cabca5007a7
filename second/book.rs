//! Document 01, "The class book", with the rules (a) to (f) of "Beacon timeslots (clauses 5.3.4, 5.5)"; which burst
//! types clash, which users a seat's count permits, and what a count of 0 in opening means, is document 02's.
//!
//! The book here is a list of bookings for each open seat, in the order in which they were made. "Its form inside is
//! the team's choice": this one holds nothing twice.

use crate::beacons::beacon_timeslots;
use crate::midambles::{permitted, refuse_bad_count};
use crate::refusals::{refuse_if, refuse_unknown_type, Answer};
use crate::timeslots::{
    refuse_bad_control, refuse_bad_factor, refuse_downlink_type_3, Direction, LAST_TIMESLOT,
};

/// Seats 0 to 15.
pub const SEATS: u32 = 16;

/// The most that one seat holds. A list is lent as many records, "however few it writes".
pub const MOST_OF_A_SEAT: usize = 40;

/// What each seat holds without drawing on the common room.
const OWN_ROOM: usize = 10;

/// The common room: what all seats together hold beyond their own room.
const COMMON_ROOM: usize = 80;

/// The leaves of a timeslot: code (Q, k) covers 16/Q of them.
pub const LEAVES: u32 = 16;

/// Factor and index of the 31 codes (Q, k).
pub fn codes() -> impl Iterator<Item = (u32, u32)> {
    [1, 2, 4, 8, 16].into_iter().flat_map(|factor| (1..=factor).map(move |index| (factor, index)))
}

/// A booking, and a record of a list.
#[derive(Clone, Copy, PartialEq)]
pub struct Record {
    pub timeslot: u32,
    pub direction: Direction,
    pub burst_type: u32,
    /// Q of the code (Q, k).
    pub factor: u32,
    /// k of the code (Q, k).
    pub index: u32,
    pub user: u32,
    pub tfci_bits: u32,
    pub tpc_bits: u32,
}

impl Record {
    /// `SLOT DIRECTION TYPE FACTOR INDEX USER TFCI TPC`, as docs/LESSONS.md has it.
    pub fn words(&self) -> String {
        format!(
            "{} {} {} {} {} {} {} {}",
            self.timeslot,
            self.direction.word(),
            self.burst_type,
            self.factor,
            self.index,
            self.user,
            self.tfci_bits,
            self.tpc_bits
        )
    }

    /// "Code (Q, k) covers the 16/Q leaves from (k - 1)16/Q." For codes that pass refusal 6.
    pub fn leaves(&self) -> std::ops::Range<u32> {
        let covered = LEAVES / self.factor;
        let first = (self.index - 1) * covered;
        first..first + covered
    }

    /// "Overlap is a shared leaf."
    fn overlaps(&self, other: &Record) -> bool {
        self.leaves().any(|leaf| other.leaves().contains(&leaf))
    }

    /// Document 02: "of two bookings in a timeslot, the types clash if exactly one of them is type 2."
    fn type_clashes_with(&self, other: &Record) -> bool {
        (self.burst_type == 2) != (other.burst_type == 2)
    }

    /// "Two bookings of one seat clash if their timeslots are equal and their directions differ", or their types clash,
    /// "or their codes overlap".
    fn clashes_with(&self, other: &Record) -> bool {
        self.timeslot == other.timeslot
            && (self.direction != other.direction
                || self.type_clashes_with(other)
                || self.overlaps(other))
    }

    /// Whether this is the code (factor, index).
    fn has_code(&self, factor: u32, index: u32) -> bool {
        self.factor == factor && self.index == index
    }
}

/// What a seat is opened with. In opening, a count of 0 means 8 (long) or 3 (short); in the book there is no 0.
#[derive(Clone, Copy, PartialEq)]
pub struct Settings {
    pub cell: u32,
    pub case: u32,
    pub k: u32,
    pub long_count: u32,
    pub short_count: u32,
}

impl Settings {
    /// Refusals 1, 3 and 9, of settings with no 0 left: the long count is for types 1 and 3, the short one for type 2.
    fn refusals(&self) -> Answer<()> {
        refuse_if(self.cell > 127, 1)?;
        refuse_bad_count(1, self.long_count)?;
        refuse_bad_count(2, self.short_count)?;
        beacon_timeslots(self.case, self.k)?;
        Ok(())
    }

    /// Document 02: a count of 0 in opening "means 8 and 3", the long count 8 and the short one 3, each by itself.
    fn without_zeros(mut self) -> Settings {
        if self.long_count == 0 {
            self.long_count = 8;
        }
        if self.short_count == 0 {
            self.short_count = 3;
        }
        self
    }

    /// This seat's count: the long one for types 1 and 3, the short one for type 2.
    pub fn count(&self, burst_type: u32) -> u32 {
        if burst_type == 2 {
            self.short_count
        } else {
            self.long_count
        }
    }

    /// The seat's beacon timeslots.
    pub fn beacons(&self) -> Vec<u32> {
        beacon_timeslots(self.case, self.k).expect("the settings in a book pass refusal 9")
    }

    /// Refusal 18, the beacon rule: (a) to (f) in their order.
    fn beacon_rule_refuses(&self, wanted: &Record) -> bool {
        if !self.beacons().contains(&wanted.timeslot) {
            return false;
        }
        let down = wanted.direction == Direction::Down;
        let a = !(down && wanted.burst_type == 1);
        let b = wanted.has_code(16, 1) && wanted.user != 1;
        let c = wanted.user == 1 && !wanted.has_code(16, 1);
        let d = wanted.user == 2;
        let e = wanted.user == 9 || wanted.user == 10;
        let f = wanted.has_code(1, 1);
        a || b || c || d || e || f
    }
}

/// An open seat.
#[derive(Clone)]
struct OpenSeat {
    settings: Settings,
    bookings: Vec<Record>,
}

/// The class book.
#[derive(Clone)]
pub struct Book {
    /// Seat 0 to seat 15; nothing where a seat is closed.
    seats: Vec<Option<OpenSeat>>,
    /// "The book breaks its conditions" (refusal 12). No call ever makes it so: it is for tests that hand damaged
    /// memory to the library.
    pub damaged: bool,
}

/// Refusal 4 as it is in a booking, which names no count: "outside 1..16 for types 1, 3; 1..6 for type 2", whatever the
/// seat's counts are.
fn refuse_bad_user(burst_type: u32, user: u32) -> Answer<()> {
    let widest = if burst_type == 2 { 6 } else { 16 };
    refuse_if(!permitted(widest, user), 4)
}

/// Refusal 5: timeslot above 14.
pub fn refuse_bad_timeslot(timeslot: u32) -> Answer<()> {
    refuse_if(timeslot > LAST_TIMESLOT, 5)
}

/// Refusal 6 where no direction is given: the factor, and the code index outside 1..factor.
fn refuse_bad_code(factor: u32, index: u32) -> Answer<()> {
    refuse_bad_factor(factor)?;
    refuse_if(index < 1 || index > factor, 6)
}

/// Refusals 2 and 4 to 8, of a booking.
fn refuse_bad_booking(wanted: &Record) -> Answer<()> {
    let down = wanted.direction == Direction::Down;
    refuse_unknown_type(wanted.burst_type)?;
    refuse_bad_user(wanted.burst_type, wanted.user)?;
    refuse_bad_timeslot(wanted.timeslot)?;
    refuse_bad_code(wanted.factor, wanted.index)?;
    refuse_if(down && ![1, 16].contains(&wanted.factor), 6)?;
    refuse_downlink_type_3(wanted.burst_type, wanted.direction)?;
    refuse_bad_control(wanted.direction, wanted.tfci_bits, wanted.tpc_bits)
}

impl Book {
    /// "An empty book, with no seat open."
    pub fn empty() -> Book {
        Book { seats: vec![None; SEATS as usize], damaged: false }
    }

    /// Opens a seat. Refusals 1, 3, 9, 12, 13, 15.
    pub fn open(&mut self, seat: u32, settings: Settings) -> Answer<()> {
        let settings = settings.without_zeros();
        settings.refusals()?;
        let place = self.place(seat)?;
        refuse_if(self.seats[place].is_some(), 15)?;
        self.seats[place] = Some(OpenSeat { settings, bookings: Vec::new() });
        Ok(())
    }

    /// Makes a booking. Refusals 2, 4 to 8, 12 to 14, 16 to 20.
    pub fn book(&mut self, seat: u32, wanted: Record) -> Answer<()> {
        self.booking_refusals(seat, &wanted)?;
        self.open_seat_mut(seat)?.bookings.push(wanted);
        Ok(())
    }

    /// The refusals of a booking; the book stays as it is.
    pub fn booking_refusals(&self, seat: u32, wanted: &Record) -> Answer<()> {
        refuse_bad_booking(wanted)?;
        let OpenSeat { settings, bookings } = self.open_seat(seat)?;
        refuse_if(!permitted(settings.count(wanted.burst_type), wanted.user), 16)?;
        refuse_if(bookings.iter().any(|held| held.clashes_with(wanted)), 17)?;
        refuse_if(settings.beacon_rule_refuses(wanted), 18)?;
        refuse_if(bookings.len() == MOST_OF_A_SEAT, 19)?;
        let beyond = self.held_beyond_own_room();
        refuse_if(bookings.len() >= OWN_ROOM && beyond == COMMON_ROOM, 20)
    }

    /// Cancels by timeslot and code. Refusals 5, 6 (no direction is given), 12, 13, 14, 21.
    pub fn cancel(&mut self, seat: u32, timeslot: u32, factor: u32, index: u32) -> Answer<()> {
        refuse_bad_timeslot(timeslot)?;
        refuse_bad_code(factor, index)?;
        let bookings = &mut self.open_seat_mut(seat)?.bookings;
        let found = bookings
            .iter()
            .position(|held| held.timeslot == timeslot && held.has_code(factor, index));
        match found {
            Some(place) => {
                bookings.remove(place);
                Ok(())
            }
            None => Err(21),
        }
    }

    /// Closes a seat, "which removes that seat's bookings and its cell". Refusals 12, 13, 14.
    pub fn close(&mut self, seat: u32) -> Answer<()> {
        self.open_seat(seat)?;
        self.seats[seat as usize] = None;
        Ok(())
    }

    /// The seat's bookings, "by timeslot, then by first leaf". Refusals 12, 13, 14.
    pub fn list(&self, seat: u32) -> Answer<Vec<Record>> {
        let mut listed = self.open_seat(seat)?.bookings.clone();
        listed.sort_by_key(|held| (held.timeslot, held.leaves().start));
        Ok(listed)
    }

    /// The list in a lent row of records; the number written is returned, and further records stay as they were.
    /// Refusals 11 to 14.
    pub fn list_into(&self, seat: u32, lent: &mut [Record]) -> Answer<usize> {
        refuse_if(lent.len() < MOST_OF_A_SEAT, 11)?;
        let listed = self.list(seat)?;
        lent[..listed.len()].copy_from_slice(&listed);
        Ok(listed.len())
    }

    /// The settings of a seat. Refusals 12, 13, 14.
    pub fn settings(&self, seat: u32) -> Answer<Settings> {
        Ok(self.open_seat(seat)?.settings)
    }

    /// Where a seat stands in this book. Refusals 12, 13.
    fn place(&self, seat: u32) -> Answer<usize> {
        refuse_if(self.damaged, 12)?;
        refuse_if(seat >= SEATS, 13)?;
        Ok(seat as usize)
    }

    /// An open seat. Refusals 12, 13, 14.
    fn open_seat(&self, seat: u32) -> Answer<&OpenSeat> {
        let place = self.place(seat)?;
        self.seats[place].as_ref().ok_or(14)
    }

    /// An open seat, to be changed. Refusals 12, 13, 14.
    fn open_seat_mut(&mut self, seat: u32) -> Answer<&mut OpenSeat> {
        let place = self.place(seat)?;
        self.seats[place].as_mut().ok_or(14)
    }

    /// "The sum over all seats of what each holds beyond 10."
    fn held_beyond_own_room(&self) -> usize {
        self.seats.iter().flatten().map(|open| open.bookings.len().saturating_sub(OWN_ROOM)).sum()
    }
}
