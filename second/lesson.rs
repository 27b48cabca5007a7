//! docs/LESSONS.md: the program `bench`, a reply for each line of a lesson.

use crate::beacons::{self, beacon_timeslots};
use crate::blocks::{block, Place};
use crate::book::{Book, Record, Settings, MOST_OF_A_SEAT};
use crate::calls::{self, Call, FORMS};
use crate::hearing::hear;
use crate::midambles::{one_chip, whole_midamble};
use crate::paging::{self, indicator, owner, owner_words, place_words};
use crate::refusals::{condition, Answer};
use crate::rows::Rows;
use crate::signal_card::{self, all_pairs, one_pair};
use crate::timeslots::{at, label_words, parts_words, timeslot, Direction, Question};
use std::io::{self, BufRead, Read, Write};

/// The most bytes that a line has, without its LF.
pub const LONGEST_LINE: usize = 8191;

/// The longest midamble, in chips.
const LONGEST_MIDAMBLE: usize = 512;

/// The most bits of a paging burst, the reserved ones included.
const MOST_PAGING_BITS: usize = 276;

/// The most indicators of a timeslot.
const MOST_INDICATORS: usize = 68;

/// What a lent record holds before a list is written: no booking is like it.
pub const NO_BOOKING: Record = Record {
    timeslot: u32::MAX,
    direction: Direction::Up,
    burst_type: u32::MAX,
    factor: u32::MAX,
    index: u32::MAX,
    user: u32::MAX,
    tfci_bits: u32::MAX,
    tpc_bits: u32::MAX,
};

/// Answers the input line by line, each as soon as it is read, up to the end of the input.
pub fn run(input: &mut impl BufRead, out: &mut dyn Write, rows: &Rows) -> io::Result<()> {
    let mut bench = Bench::new(rows);
    let mut line_number = 0;
    let begun = behind_mark(input)?;
    let mut input = begun.as_slice().chain(input);
    while let Some(line) = next_line(&mut input)? {
        line_number += 1;
        out.write_all(bench.reply(line_number, &line).as_bytes())?;
        out.flush()?;
    }
    Ok(())
}

/// A UTF-8 byte order mark at the start of the input is passed over. Gives the bytes that were read to see that there is
/// none, and reads no byte more than that takes.
fn behind_mark(input: &mut impl BufRead) -> io::Result<Vec<u8>> {
    let mut begun = Vec::new();
    for expected in [0xEF, 0xBB, 0xBF] {
        let Some(byte) = input.by_ref().bytes().next().transpose()? else {
            return Ok(begun);
        };
        begun.push(byte);
        if byte != expected {
            return Ok(begun);
        }
    }
    Ok(Vec::new())
}

/// The next line without its LF, or nothing at the end of the input. Of a line that is too long only so much is kept
/// that this can be seen; its rest is passed over.
fn next_line(input: &mut impl BufRead) -> io::Result<Option<Vec<u8>>> {
    let mut line = Vec::new();
    loop {
        match input.by_ref().bytes().next().transpose()? {
            None if line.is_empty() => return Ok(None),
            None | Some(b'\n') => return Ok(Some(line)),
            Some(byte) if line.len() <= LONGEST_LINE => line.push(byte),
            Some(_) => {}
        }
    }
}

/// What a lesson is run on: the class book, empty at first, and the code rows.
pub struct Bench<'a> {
    pub book: Book,
    rows: &'a Rows,
}

impl Bench<'_> {
    pub fn new(rows: &Rows) -> Bench<'_> {
        Bench { book: Book::empty(), rows }
    }

    /// The reply to a line, each of its lines with its LF; nothing for a line without words.
    pub fn reply(&mut self, line_number: u64, line: &[u8]) -> String {
        if line.len() > LONGEST_LINE {
            return format!("line {line_number}: expected at most {LONGEST_LINE} bytes\n");
        }
        match calls::read(line) {
            Err(expected) => format!("line {line_number}: {expected}\n"),
            Ok(None) => String::new(),
            Ok(Some(call)) => match self.answer(&call) {
                Ok(reply) => format!("{reply}\n"),
                Err(number) => format!("refused {number}: {}\n", condition(number)),
            },
        }
    }

    /// The reply to a call that is not refused, or the refusal's number.
    pub fn answer(&mut self, call: &Call) -> Answer<String> {
        match call.name {
            "open" => self.open(call),
            "book" => self.book(call),
            "cancel" => self.cancel(call),
            "close" => self.close(call),
            "list" => self.list(call),
            "summary" => self.summary(call),
            "chip" => self.chip(call),
            "midamble" => self.midamble(call),
            "block" => self.block(call),
            "pair" => self.pair(call),
            "pairs" => self.pairs(call),
            "hear" => self.hear(call),
            "parts" => parts(call),
            "at" => what_lies_at(call),
            "beacon" => beacon(call),
            "indicator" => place_of_indicator(call),
            "page" => page(call),
            "read" => read(call),
            "owner" => owner_of_bit(call),
            "help" => Ok(help()),
            name => unreachable!("the table has no call {name}"),
        }
    }

    fn open(&mut self, call: &Call) -> Answer<String> {
        let [seat, cell, case, k, long_count, short_count] = call.numbers();
        let settings = Settings { cell, case, k, long_count, short_count };
        self.book.open(seat, settings).map(ok)
    }

    fn book(&mut self, call: &Call) -> Answer<String> {
        let [seat, timeslot, burst_type, factor, index, user, tfci_bits, tpc_bits] = call.numbers();
        let record = Record {
            timeslot,
            direction: call.direction(),
            burst_type,
            factor,
            index,
            user,
            tfci_bits,
            tpc_bits,
        };
        self.book.book(seat, record).map(ok)
    }

    fn cancel(&mut self, call: &Call) -> Answer<String> {
        let [seat, timeslot, factor, index] = call.numbers();
        self.book.cancel(seat, timeslot, factor, index).map(ok)
    }

    fn close(&mut self, call: &Call) -> Answer<String> {
        let [seat] = call.numbers();
        self.book.close(seat).map(ok)
    }

    fn list(&self, call: &Call) -> Answer<String> {
        let [seat] = call.numbers();
        let mut lent = [NO_BOOKING; MOST_OF_A_SEAT];
        let written = self.book.list_into(seat, &mut lent)?;
        let mut reply = format!("list {written}");
        for record in &lent[..written] {
            reply.push('\n');
            reply.push_str(&record.words());
        }
        Ok(reply)
    }

    fn summary(&self, call: &Call) -> Answer<String> {
        let [seat, timeslot] = call.numbers();
        let summary = self.book.summary(seat, timeslot)?;
        Ok(format!("summary {}", summary.words()))
    }

    fn chip(&self, call: &Call) -> Answer<String> {
        let [cell, burst_type, count, user, i] = call.numbers();
        let power = one_chip(self.rows, cell, burst_type, count, user, i)?;
        Ok(format!("chip {power}"))
    }

    fn midamble(&self, call: &Call) -> Answer<String> {
        let [cell, burst_type, count, user] = call.numbers();
        let mut lent = [0; LONGEST_MIDAMBLE];
        let written = whole_midamble(self.rows, cell, burst_type, count, user, &mut lent)?;
        Ok(format!("midamble {}", digit_words(&lent[..written])))
    }

    /// "Of more than 512 the program lends 512, which answers the same."
    fn block(&self, call: &Call) -> Answer<String> {
        let [cell, burst_type, count, user, written, length] = call.numbers();
        let place = Place { cell, burst_type, count, user, written };
        let mut lent = vec![0; LONGEST_MIDAMBLE.min(length as usize)];
        let (answer, _) = block(self.rows, place, &mut lent);
        Ok(match answer? {
            0 => "block 0".to_string(),
            written => format!("block {written} {}", digit_words(&lent[..written])),
        })
    }

    fn pair(&self, call: &Call) -> Answer<String> {
        let [cell, burst_type, count, user, i, level] = call.numbers();
        let (real, imaginary) = one_pair(self.rows, cell, burst_type, count, user, i, level)?;
        Ok(format!("pair {}", signal_card::words(&[real, imaginary])))
    }

    fn pairs(&self, call: &Call) -> Answer<String> {
        let [cell, burst_type, count, user, level] = call.numbers();
        let mut lent = [f32::NAN; 2 * LONGEST_MIDAMBLE];
        let written = all_pairs(self.rows, cell, burst_type, count, user, level, &mut lent)?;
        Ok(format!("pairs {}", signal_card::words(&lent[..written])))
    }

    /// What stands on the line is lent, each sample a whole number.
    fn hear(&self, call: &Call) -> Answer<String> {
        let [cell, burst_type, count] = call.numbers();
        let lent: Vec<Option<i64>> = call.samples().into_iter().map(Some).collect();
        let heard = hear(self.rows, cell, burst_type, count, &lent)?;
        Ok(heard.words())
    }
}

/// The reply of a call that only changes the book.
fn ok(_: ()) -> String {
    "ok".to_string()
}

/// Bytes of 0 to 9 as digits, with no blanks between.
fn digit_words(digits: &[u8]) -> String {
    digits.iter().map(u8::to_string).collect()
}

fn parts(call: &Call) -> Answer<String> {
    let [burst_type, factor, tfci_bits, tpc_bits] = call.numbers();
    let slot = timeslot(&Question {
        burst_type,
        direction: call.direction(),
        factor,
        tfci_bits,
        tpc_bits,
    })?;
    Ok(format!("parts {}", parts_words(&slot)))
}

fn what_lies_at(call: &Call) -> Answer<String> {
    let [burst_type, factor, tfci_bits, tpc_bits, chip] = call.numbers();
    let question =
        Question { burst_type, direction: call.direction(), factor, tfci_bits, tpc_bits };
    at(&question, chip).map(label_words)
}

fn beacon(call: &Call) -> Answer<String> {
    let [case, k] = call.numbers();
    let timeslots = beacon_timeslots(case, k)?;
    Ok(format!("beacon {}", beacons::words(timeslots)))
}

fn place_of_indicator(call: &Call) -> Answer<String> {
    let [burst_type, length, frames, number] = call.numbers();
    indicator(burst_type, length, frames, number).map(place_words)
}

fn page(call: &Call) -> Answer<String> {
    let [burst_type, length] = call.numbers();
    let mut lent = [0; MOST_PAGING_BITS];
    let written = paging::write(burst_type, length, call.digits(), &mut lent)?;
    Ok(format!("bits {}", digit_words(&lent[..written])))
}

fn read(call: &Call) -> Answer<String> {
    let [burst_type, length] = call.numbers();
    let mut lent = [0; MOST_INDICATORS];
    let written = paging::read(burst_type, length, call.digits(), &mut lent)?;
    Ok(format!("settings {}", digit_words(&lent[..written])))
}

fn owner_of_bit(call: &Call) -> Answer<String> {
    let [burst_type, length, bit] = call.numbers();
    owner(burst_type, length, bit).map(owner_words)
}

/// The table of docs/LESSONS.md, `CALL -> REPLY` on each line.
fn help() -> String {
    let lines: Vec<String> =
        FORMS.iter().map(|form| format!("{} -> {}", form.call, form.reply)).collect();
    lines.join("\n")
}
