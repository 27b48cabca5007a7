//! The moods of random lessons: what sort of calls a lesson is made of.

/// A mood. The seed of a lesson chooses one: seed mod 7 is its place in `MOODS`.
#[derive(Clone, Copy, PartialEq)]
pub enum Mood {
    /// Nearly all is right, and no seat holds many bookings.
    Modest,
    /// Most calls have numbers that lie just outside the rules, or are huge.
    Damaged,
    /// A few seats book as much as they can: 19 and 20.
    Greedy,
    /// All sixteen seats are busy.
    Busy,
    /// Most bookings aim at beacon timeslots: 18.
    Beacons,
    /// Many lines are no call.
    Scribbled,
    /// Another of these moods every few hundred lines, on the same book.
    Changing,
}

/// All moods, in the order in which seeds choose them.
const MOODS: [Mood; 7] = [
    Mood::Modest,
    Mood::Damaged,
    Mood::Greedy,
    Mood::Busy,
    Mood::Beacons,
    Mood::Scribbled,
    Mood::Changing,
];

/// The moods that `Mood::Changing` changes between.
pub const LASTING_MOODS: [Mood; 6] =
    [Mood::Modest, Mood::Damaged, Mood::Greedy, Mood::Busy, Mood::Beacons, Mood::Scribbled];

/// How a mood behaves.
#[derive(Clone, Copy)]
pub struct Manners {
    /// The fewest and the most seats in play at a time.
    pub seats: [u32; 2],
    /// Whether the first seats in play are called more often than the last.
    pub favourites: bool,
    /// The weight of a cancel for each booking that the seat holds; a booking's weight is 1000.
    pub cancel_weight: u32,
    pub close_weight: u32,
    /// Of a hundred bookings, how many are made without looking at the book.
    pub blind: u32,
    /// Of a hundred bookings, how many aim at a beacon timeslot.
    pub at_beacons: u32,
    /// Of a hundred calls, how many get damaged numbers.
    pub damaged: u32,
    /// Of a hundred lines, how many are scribbled.
    pub scribbled: u32,
}

const MODEST: Manners = Manners {
    seats: [2, 5],
    favourites: false,
    cancel_weight: 70,
    close_weight: 15,
    blind: 15,
    at_beacons: 10,
    damaged: 2,
    scribbled: 2,
};

impl Mood {
    pub fn of_seed(seed: u64) -> Mood {
        MOODS[(seed % MOODS.len() as u64) as usize]
    }

    pub fn word(self) -> &'static str {
        match self {
            Mood::Modest => "modest",
            Mood::Damaged => "damaged",
            Mood::Greedy => "greedy",
            Mood::Busy => "busy",
            Mood::Beacons => "beacons",
            Mood::Scribbled => "scribbled",
            Mood::Changing => "changing",
        }
    }

    pub fn manners(self) -> Manners {
        match self {
            Mood::Modest | Mood::Changing => MODEST,
            Mood::Damaged => Manners { damaged: 60, scribbled: 5, ..MODEST },
            Mood::Greedy => {
                Manners { favourites: true, cancel_weight: 3, close_weight: 3, blind: 5, ..MODEST }
            }
            Mood::Busy => Manners { seats: [16, 16], cancel_weight: 30, close_weight: 5, ..MODEST },
            Mood::Beacons => Manners { seats: [3, 8], blind: 40, at_beacons: 60, ..MODEST },
            Mood::Scribbled => Manners { damaged: 10, scribbled: 35, ..MODEST },
        }
    }
}
