//! Random lessons (`second random`) over C: reply, book and every lent byte, as the model has them. Lent memory has
//! every length around the needed one. Now and then the same call is made on a damaged copy of the book, and with a
//! direction that is neither. After every call of the class book the summary of its seat and timeslot is compared, and
//! after every few calls all sixteen plans are listed and summed up on both sides. Between the calls it is asked who is
//! on the air, in random rows.

use crate::air::{add_noise, bad_samples, lent_as, received, Cell};
use crate::beside::{direction_number, Beside, Tally};
use crate::bookings::numbers_of;
use crate::damage;
use library::MqBook;
use second::blocks::Place;
use second::book::Record;
use second::calls::{self, Call};
use second::dice::Dice;
use second::lesson::LONGEST_LINE;
use second::midambles::family;
use second::random::Writer;
use second::rows::Rows;

const SEEDS: u64 = 21;
const LINES: u64 = 12000;

/// The calls that change or read the class book.
const BOOK_CALLS: [&str; 6] = ["open", "book", "cancel", "close", "list", "summary"];

struct Lesson<'a> {
    both: Beside<'a>,
    dice: Dice,
    damaged: u64,
}

/// All lessons; what was compared, and how many of the calls were on damaged books.
pub fn run(rows: &Rows) -> (Tally, u64) {
    let mut all = Tally::default();
    let mut damaged = 0;
    for seed in 1..=SEEDS {
        let dice = Dice::new(seed + 1_000_000);
        let mut lesson = Lesson { both: Beside::new(rows), dice, damaged: 0 };
        lesson.run(seed);
        all.add(&lesson.both.tally);
        damaged += lesson.damaged;
    }
    (all, damaged)
}

impl Lesson<'_> {
    fn run(&mut self, seed: u64) {
        let mut writer = Writer::new(seed, self.both.rows);
        for line_number in 0..LINES {
            let line = writer.suggest();
            writer.follow(line.as_bytes());
            if line.len() > LONGEST_LINE {
                continue;
            }
            let Ok(Some(call)) = calls::read(line.as_bytes()) else {
                continue;
            };
            self.call(&call);
            if line_number % 64 == 63 {
                self.plans();
            }
            if self.dice.one_in(20) {
                self.hear();
            }
        }
    }

    fn call(&mut self, call: &Call) {
        if !BOOK_CALLS.contains(&call.name) {
            return self.question(call);
        }
        if self.dice.one_in(12) {
            self.on_damaged(call);
        }
        self.both.book = self.book_call(call, self.both.book);
    }

    /// All sixteen plans and what they say of every fourth timeslot, and a seat that is none.
    fn plans(&mut self) {
        for seat in 0..=16 {
            let room = self.around(320);
            self.both.list(self.both.book, seat, room);
            let first = self.dice.below(4) as u32;
            for timeslot in (first..=15).step_by(4) {
                self.both.summary(self.both.book, seat, timeslot);
            }
        }
    }

    /// A length of lent memory around the needed one.
    fn around(&mut self, needed: usize) -> usize {
        match self.dice.below(8) {
            0 => 0,
            1 => needed / 2,
            2 => needed - 1,
            3 => needed + 1,
            4 => needed + self.dice.place(40),
            5 => needed.saturating_sub(self.dice.place(12)),
            _ => needed,
        }
    }

    /// One of the calls of the class book, on a book; the book afterwards.
    fn book_call(&mut self, call: &Call, b: MqBook) -> MqBook {
        match call.name {
            "open" => self.both.open(b, call.numbers()),
            "book" => self.booking(call, b),
            "cancel" => self.both.cancel(b, call.numbers()),
            "close" => {
                let [seat] = call.numbers();
                self.both.close(b, seat)
            }
            "summary" => {
                let [seat, timeslot] = call.numbers();
                self.both.summary(b, seat, timeslot);
                b
            }
            _ => {
                let [seat] = call.numbers();
                let room = self.around(320);
                self.both.list(b, seat, room);
                b
            }
        }
    }

    fn booking(&mut self, call: &Call, b: MqBook) -> MqBook {
        let [seat, timeslot, burst_type, factor, index, user, tfci_bits, tpc_bits] = call.numbers();
        let direction = call.direction();
        let wanted =
            Record { timeslot, direction, burst_type, factor, index, user, tfci_bits, tpc_bits };
        if self.dice.one_in(40) {
            let neither = if self.dice.one_in(2) { u32::MAX } else { self.dice.between(2, 300) };
            let mut numbers = numbers_of(&wanted);
            numbers[1] = neither;
            self.both.book(b, seat, numbers);
        }
        self.both.book(b, seat, numbers_of(&wanted))
    }

    /// The same call on a copy of the book that surely breaks its conditions.
    fn on_damaged(&mut self, call: &Call) {
        let broken = damage::broken(&mut self.dice, &self.both.book);
        self.both.model.damaged = true;
        self.book_call(call, broken);
        self.both.model.damaged = false;
        self.damaged += 1;
    }

    fn question(&mut self, call: &Call) {
        match call.name {
            "chip" => self.both.chip(call.numbers()),
            "midamble" => {
                let numbers: [u32; 4] = call.numbers();
                let room = self.around(if numbers[1] == 2 { 256 } else { 512 });
                let _ = self.both.midamble(numbers, room);
            }
            "block" => self.block(call.numbers()),
            "pair" => self.both.pair(call.numbers()),
            "pairs" => {
                let numbers: [u32; 5] = call.numbers();
                let room = self.around(if numbers[1] == 2 { 512 } else { 1024 });
                let _ = self.both.pairs(numbers, room);
            }
            "parts" => {
                let [burst, factor, tfci, tpc] = call.numbers();
                let direction = direction_number(call.direction());
                let _ = self.both.parts([burst, direction, factor, tfci, tpc]);
            }
            "at" => {
                let [burst, factor, tfci, tpc, chip] = call.numbers();
                let direction = direction_number(call.direction());
                self.both.at([burst, direction, factor, tfci, tpc], chip);
            }
            "beacon" => {
                let [case, k] = call.numbers();
                self.both.beacon(case, k);
            }
            "indicator" => self.both.indicator(call.numbers()),
            "owner" => self.both.owner(call.numbers()),
            "page" | "read" => self.page_or_read(call),
            _ => {}
        }
    }

    /// The block as the lesson asks for it; then block after block behind it, of lengths around what is left.
    fn block(&mut self, [cell, burst_type, count, user, written, length]: [u32; 6]) {
        let mut place = Place { cell, burst_type, count, user, written };
        let mut room = length.min(600) as usize;
        loop {
            let (chips, next) = self.both.block(place, room);
            if chips.is_empty() && self.dice.one_in(3) {
                return;
            }
            place = next;
            let end: u32 = if burst_type == 2 { 256 } else { 512 };
            let left = end.saturating_sub(place.written) as usize;
            room = if self.dice.one_in(2) { self.around(left.max(1)) } else { self.dice.place(80) };
        }
    }

    /// Up to three users, permitted or not, with noise or without, and a few samples besides. Now and then a sample is
    /// bad, or a number wrong.
    fn hear(&mut self) {
        let dice = &mut self.dice;
        let burst = dice.between(1, 3);
        let cell = Cell::new([dice.below(128), burst, dice.pick(family(burst).counts)]);
        let mut air = cell.silence();
        for _ in 0..dice.below(4) {
            let user = cell.anybody(dice);
            cell.add(&mut air, user, dice.below(4), dice.between(1, 900) as i32);
        }
        if dice.one_in(2) {
            let most = dice.pick(&[1, 1, 20, 300, 2047]);
            add_noise(dice, &mut air, most);
        }
        for _ in 0..dice.below(4) {
            let place = dice.place(air.len());
            air[place] += dice.pick(&[-1, 1, 1]);
        }
        let row = received(dice, &air);
        let mut numbers = cell.numbers;
        if dice.one_in(8) {
            numbers[dice.place(3)] = dice.pick(&[0, 1, 2, 3, 4, 5, 6, 8, 16, 17, 128, u32::MAX]);
        }
        let room = self.around(row.len());
        let mut lent = lent_as(&row, room);
        if room > 0 && self.dice.one_in(6) {
            lent[self.dice.place(room)] = self.dice.pick(&bad_samples());
        }
        self.both.hear("hear a random row", numbers, &lent);
    }

    /// A byte other than 0 is on, or 1: some are made other bytes.
    fn page_or_read(&mut self, call: &Call) {
        let [burst, length] = call.numbers();
        let mut input = call.digits().to_vec();
        for byte in &mut input {
            if *byte != 0 && self.dice.one_in(3) {
                *byte = 1 + self.dice.below(255) as u8;
            }
        }
        let bits = if burst == 2 { 276 } else { 244 };
        if call.name == "page" {
            let room = self.around(bits);
            self.both.page([burst, length], &input, room);
        } else {
            let room = self.around((bits - 4) / (2 * length.clamp(1, 8) as usize));
            self.both.read([burst, length], &input, room);
        }
    }
}
