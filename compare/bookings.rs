//! The calls of the class book, side by side: each on the book that is handed in, and with the book afterwards.

use crate::beside::{
    direction_and_factor, direction_number, expect, expect_memory, lent, number, written, Beside,
    Call,
};
use library::{MqBook, MqBookAnswer, MqSummary};
use second::book::{Record, Settings};
use second::lesson::NO_BOOKING;
use second::refusals::Answer;
use second::summaries::Summary;

/// A booking: timeslot, direction, burst type, factor, index, user, TFCI bits, TPC bits.
fn record(numbers: [u32; 8]) -> Record {
    let [timeslot, direction, burst_type, factor, index, user, tfci_bits, tpc_bits] = numbers;
    let (direction, factor) = direction_and_factor(direction, factor);
    Record { timeslot, direction, burst_type, factor, index, user, tfci_bits, tpc_bits }
}

/// A booking as its numbers over C.
pub fn numbers_of(record: &Record) -> [u32; 8] {
    let direction = direction_number(record.direction);
    let Record { timeslot, burst_type, factor, index, user, tfci_bits, tpc_bits, .. } = *record;
    [timeslot, direction, burst_type, factor, index, user, tfci_bits, tpc_bits]
}

/// A summary as the library hands it over: leaf l is bit 2^l, a direction is 0 up, 1 down, 2 none.
fn summarised(wanted: &Answer<Summary>) -> MqSummary {
    match wanted {
        Ok(summary) => MqSummary {
            refusal: 0,
            leaves: (0..16).map(|leaf| u32::from(summary.leaves[leaf]) << leaf).sum(),
            direction: summary.direction.map_or(2, direction_number),
            count: summary.count as u32,
        },
        Err(refusal) => MqSummary { refusal: *refusal, ..MqSummary::default() },
    }
}

impl Beside<'_> {
    /// A refused call hands the same bytes back. Then the summary of the seat and timeslot is asked for.
    fn on_book(
        &mut self,
        call: Call,
        before: &MqBook,
        answer: MqBookAnswer,
        wanted: u32,
        (seat, timeslot): (u32, u32),
    ) -> MqBook {
        expect(call, "refusal", answer.refusal, wanted);
        if wanted != 0 && answer.book != *before {
            expect(call, "book", "changed", "unchanged, since it is refused");
        }
        self.count(wanted);
        self.summary(answer.book, seat, timeslot);
        answer.book
    }

    pub fn open(&mut self, b: MqBook, numbers: [u32; 6]) -> MqBook {
        let [seat, cell, case, k, long_count, short_count] = numbers;
        let settings = Settings { cell, case, k, long_count, short_count };
        let wanted = number(&self.model.open(seat, settings));
        let answer = library::open(b, seat, cell, case, k, long_count, short_count);
        self.on_book(("open", &numbers), &b, answer, wanted, (seat, k))
    }

    /// The booking's numbers as for `record`: its direction may be any.
    pub fn book(&mut self, b: MqBook, seat: u32, numbers: [u32; 8]) -> MqBook {
        let wanted = number(&self.model.book(seat, record(numbers)));
        let answer = library::book(b, seat, numbers);
        self.on_book((&format!("book {seat}"), &numbers), &b, answer, wanted, (seat, numbers[0]))
    }

    pub fn cancel(&mut self, b: MqBook, numbers: [u32; 4]) -> MqBook {
        let [seat, timeslot, factor, index] = numbers;
        let wanted = number(&self.model.cancel(seat, timeslot, factor, index));
        let answer = library::cancel(b, seat, timeslot, factor, index);
        self.on_book(("cancel", &numbers), &b, answer, wanted, (seat, timeslot))
    }

    pub fn close(&mut self, b: MqBook, seat: u32) -> MqBook {
        let wanted = number(&self.model.close(seat));
        self.on_book(("close", &[seat]), &b, library::close(b, seat), wanted, (seat, 0))
    }

    pub fn summary(&mut self, b: MqBook, seat: u32, timeslot: u32) {
        let wanted = self.model.summary(seat, timeslot);
        let answer = library::summary(b, seat, timeslot);
        expect(("summary", &[seat, timeslot]), "answer", answer, summarised(&wanted));
        self.count(number(&wanted));
    }

    pub fn list(&mut self, b: MqBook, seat: u32, room: usize) {
        let (mut memory, mut expected) = (lent(room), lent(room));
        let mut records = vec![NO_BOOKING; room / 8];
        let wanted = self.model.list_into(seat, &mut records);
        for (place, record) in records[..wanted.unwrap_or(0)].iter().enumerate() {
            let bytes = numbers_of(record).map(|value| value as u8);
            expected[8 * place..8 * place + 8].copy_from_slice(&bytes);
        }
        let answer = library::list(b, seat, &mut memory);
        let call = ("list", &[seat, room as u32][..]);
        expect(call, "answer", answer, written(&wanted));
        expect_memory(call, &memory, &expected);
        self.count(number(&wanted));
    }
}
