//! Random lessons: `second random SEED LINES`. The same seed gives the same lesson.
//!
//! The writer of a lesson keeps a class book of its own, on which it makes the calls that it writes, so that it can
//! aim: at bookings that are accepted, and at those that only lack room.

use crate::book::{Record, Settings, SEATS};
use crate::bookings::{aimed, blind, to_cancel, to_sum_up, with_any_user};
use crate::calls::{self, Call};
use crate::dice::Dice;
use crate::lesson::{Bench, LONGEST_LINE};
use crate::moods::{Manners, Mood, LASTING_MOODS};
use crate::questions::question;
use crate::rows::Rows;
use crate::scribbles::{damaged, oddly_spelled, scribbled};
use std::io::{self, Write};

/// How often a booking is drawn anew before it is taken as it is.
const ATTEMPTS: u32 = 12;

/// Prints a lesson of that many lines; the first is a comment that names the seed and the mood.
pub fn print(out: &mut dyn Write, seed: u64, lines: u64, rows: &Rows) -> io::Result<()> {
    let mut writer = Writer::new(seed, rows);
    for line_number in 1..=lines {
        if line_number == 1 {
            let mood = Mood::of_seed(seed).word();
            writeln!(out, "# second random {seed} {lines}: {mood}")?;
        } else {
            let line = writer.suggest();
            writer.follow(line.as_bytes());
            writeln!(out, "{line}")?;
        }
    }
    Ok(())
}

/// The calls of the class book.
#[derive(Clone, Copy)]
enum Kind {
    Open,
    Book,
    Cancel,
    Close,
    List,
    Summary,
}

/// The seat of a call that changes the book, and its timeslot, if it has one; nothing for another call.
fn seat_and_timeslot(call: &Call) -> Option<(u32, Option<u32>)> {
    match call.name {
        "open" => {
            let [seat, _, _, _, _, _] = call.numbers();
            Some((seat, None))
        }
        "book" => {
            let [seat, timeslot, _, _, _, _, _, _] = call.numbers();
            Some((seat, Some(timeslot)))
        }
        "cancel" => {
            let [seat, timeslot, _, _] = call.numbers();
            Some((seat, Some(timeslot)))
        }
        "close" => {
            let [seat] = call.numbers();
            Some((seat, None))
        }
        _ => None,
    }
}

/// The writer of a random lesson.
pub struct Writer<'a> {
    dice: Dice,
    /// The seed's mood.
    mood: Mood,
    /// The manners in force.
    manners: Manners,
    /// The seats in play.
    seats: Vec<u32>,
    /// How many lines the seats in play stay the same.
    lines_left: u32,
    /// Calls to be made first, the last of them next.
    pending: Vec<String>,
    bench: Bench<'a>,
    rows: &'a Rows,
}

impl Writer<'_> {
    pub fn new(seed: u64, rows: &Rows) -> Writer<'_> {
        let mood = Mood::of_seed(seed);
        Writer {
            dice: Dice::new(seed),
            mood,
            manners: mood.manners(),
            seats: Vec::new(),
            lines_left: 0,
            pending: Vec::new(),
            bench: Bench::new(rows),
            rows,
        }
    }

    /// A next line, without its LF.
    pub fn suggest(&mut self) -> String {
        if self.lines_left == 0 {
            self.begin_stretch();
        }
        self.lines_left -= 1;
        self.some_line()
    }

    /// Makes the call of a line on the writer's own book, if it is one that changes it. After one in three of such
    /// calls, accepted or refused, the next line is a summary of its seat and timeslot.
    pub fn follow(&mut self, line: &[u8]) {
        if line.len() > LONGEST_LINE {
            return;
        }
        let Ok(Some(call)) = calls::read(line) else {
            return;
        };
        let Some((seat, timeslot)) = seat_and_timeslot(&call) else {
            return;
        };
        // A refusal leaves the book as it was, so there is nothing to follow.
        let _ = self.bench.answer(&call);
        if self.dice.one_in(3) {
            let timeslot = timeslot.unwrap_or_else(|| to_sum_up(&mut self.dice, &[]));
            self.pending.push(format!("summary {seat} {timeslot}"));
        }
    }

    /// Chooses the seats in play. Before they are played, all seats may be listed, and about half of the open ones are
    /// closed; but where all sixteen are in play, few are.
    fn begin_stretch(&mut self) {
        self.lines_left = self.dice.between(150, 450);
        if self.mood == Mood::Changing {
            self.manners = self.dice.pick(&LASTING_MOODS).manners();
        }
        let [fewest, most] = self.manners.seats;
        let wanted = self.dice.between(fewest, most);
        let mut all: Vec<u32> = (0..SEATS).collect();
        self.seats.clear();
        for _ in 0..wanted {
            let place = self.dice.place(all.len());
            self.seats.push(all.remove(place));
        }
        let one_in = if wanted == SEATS { 16 } else { 2 };
        for seat in 0..SEATS {
            if self.bench.book.settings(seat).is_ok() && self.dice.one_in(one_in) {
                self.pending.push(format!("close {seat}"));
            }
        }
        if self.dice.one_in(2) {
            let lists = (0..SEATS).map(|seat| format!("list {seat}"));
            self.pending.extend(lists);
        }
    }

    fn some_line(&mut self) -> String {
        let mut call = self.some_call();
        if self.dice.percent(self.manners.scribbled) {
            return scribbled(&mut self.dice, &call);
        }
        if self.dice.percent(self.manners.damaged) {
            call = damaged(&mut self.dice, &call);
        }
        if self.dice.one_in(15) {
            call = oddly_spelled(&mut self.dice, &call);
        }
        call
    }

    fn some_call(&mut self) -> String {
        if let Some(call) = self.pending.pop() {
            call
        } else if self.dice.one_in(10) {
            question(&mut self.dice, self.rows)
        } else {
            self.book_call()
        }
    }

    fn some_seat(&mut self) -> u32 {
        if self.dice.one_in(40) {
            return self.dice.below(SEATS);
        }
        if self.manners.favourites {
            for seat in &self.seats {
                if self.dice.one_in(2) {
                    return *seat;
                }
            }
        }
        self.dice.pick(&self.seats)
    }

    /// A call of the class book.
    fn book_call(&mut self) -> String {
        let seat = self.some_seat();
        match self.bench.book.settings(seat) {
            Ok(settings) => self.call_on_open_seat(seat, settings),
            Err(_) => self.call_on_closed_seat(seat),
        }
    }

    fn call_on_open_seat(&mut self, seat: u32, settings: Settings) -> String {
        let held = self.bench.book.list(seat).unwrap_or_default();
        let cancel_weight = self.manners.cancel_weight * held.len() as u32;
        let kind = self.dice.pick_by_weight(&[
            (5, Kind::Open),
            (1000, Kind::Book),
            (10 + cancel_weight, Kind::Cancel),
            (self.manners.close_weight, Kind::Close),
            (30, Kind::List),
            (60, Kind::Summary),
        ]);
        if matches!(kind, Kind::Book) && !self.dice.percent(self.manners.blind) {
            self.aimed_booking(seat, settings, &held)
        } else {
            self.call(kind, seat, &settings.beacons(), &held)
        }
    }

    fn call_on_closed_seat(&mut self, seat: u32) -> String {
        let kind = self.dice.pick_by_weight(&[
            (80, Kind::Open),
            (10, Kind::Book),
            (3, Kind::Cancel),
            (3, Kind::Close),
            (4, Kind::List),
            (6, Kind::Summary),
        ]);
        self.call(kind, seat, &[0], &[])
    }

    /// A call of that kind, a booking being blind.
    fn call(&mut self, kind: Kind, seat: u32, beacons: &[u32], held: &[Record]) -> String {
        match kind {
            Kind::Open => self.opening(seat),
            Kind::Book => {
                let record = blind(&mut self.dice, self.manners.at_beacons, beacons);
                format!("book {seat} {}", record.words())
            }
            Kind::Cancel => {
                let [timeslot, factor, index] = to_cancel(&mut self.dice, held);
                format!("cancel {seat} {timeslot} {factor} {index}")
            }
            Kind::Close => format!("close {seat}"),
            Kind::List => format!("list {seat}"),
            Kind::Summary => self.summary(seat, held),
        }
    }

    /// A summary, mostly of this seat; now and then of any, or of one that is none.
    fn summary(&mut self, seat: u32, held: &[Record]) -> String {
        let asked = match self.dice.below(20) {
            0 => self.dice.pick(&[SEATS, SEATS + 1, u32::MAX]),
            1..=4 => self.dice.below(SEATS),
            _ => seat,
        };
        let timeslot = to_sum_up(&mut self.dice, held);
        format!("summary {asked} {timeslot}")
    }

    fn opening(&mut self, seat: u32) -> String {
        let cell = self.dice.below(128);
        let (case, last_k) = self.dice.pick(&[(1, 14), (2, 6)]);
        let k = self.dice.between(0, last_k);
        let [long_count, short_count] = self.counts();
        format!("open {seat} {cell} {case} {k} {long_count} {short_count}")
    }

    /// The long and the short count of an opening: one time in six both 0; else each by itself, mostly 16 and 6, so that many
    /// seats permit users above 8, and above 3 of type 2.
    fn counts(&mut self) -> [u32; 2] {
        if self.dice.one_in(6) {
            return [0, 0];
        }
        let long_count = self.dice.pick_by_weight(&[(1, 0), (2, 4), (1, 8), (6, 16)]);
        let short_count = self.dice.pick_by_weight(&[(1, 0), (1, 3), (8, 6)]);
        [long_count, short_count]
    }

    /// A booking that is accepted, or only lacks room, if a few attempts find one; now and then with any user in place
    /// of its own.
    fn aimed_booking(&mut self, seat: u32, settings: Settings, held: &[Record]) -> String {
        let at_beacons = self.manners.at_beacons;
        let mut record = aimed(&mut self.dice, at_beacons, settings, held);
        for _ in 0..ATTEMPTS {
            let answer = self.bench.book.booking_refusals(seat, &record);
            if matches!(answer, Ok(()) | Err(19) | Err(20)) {
                break;
            }
            record = aimed(&mut self.dice, at_beacons, settings, held);
        }
        if self.dice.one_in(12) {
            record = with_any_user(&mut self.dice, record);
        }
        format!("book {seat} {}", record.words())
    }
}
