//! The library over C and the second program's model, side by side: each function here puts one call to both. Answers
//! and lent memory are compared whole; where they differ, the run ends with exit 1. The calls of the class book are in
//! bookings.rs.

use library::{MqAnswer, MqBeacons, MqBlock, MqBlockPlace, MqBlockStart, MqBook, MqHear};
use library::{MqIndicator, MqOwner, MqPair, MqParts, MqPlace};
use second::beacons::beacon_timeslots;
use second::blocks::{self, Place};
use second::book::Book;
use second::hearing::{self, Heard};
use second::refusals::Answer;
use second::rows::Rows;
use second::timeslots::{self, Direction, Label, Question, Timeslot};
use second::{midambles, paging, signal_card};
use std::fmt::Debug;
use std::hint::black_box;
use std::process::exit;

/// How many calls were compared, and how often each refusal came; place 0 is for calls that were answered.
#[derive(Clone, Default)]
pub struct Tally {
    pub calls: u64,
    pub by_refusal: [u64; 25],
}

impl Tally {
    pub fn add(&mut self, other: &Tally) {
        self.calls += other.calls;
        for (sum, seen) in self.by_refusal.iter_mut().zip(other.by_refusal) {
            *sum += seen;
        }
    }

    /// `N calls; by refusal (0: answered): 0: A, 1: B, ..`, without the refusals that never came.
    pub fn words(&self) -> String {
        let seen = self.by_refusal.iter().enumerate().filter(|(_, times)| **times > 0);
        let seen: Vec<String> =
            seen.map(|(refusal, times)| format!("{refusal}: {times}")).collect();
        format!("{} calls; by refusal (0: answered): {}", self.calls, seen.join(", "))
    }
}

/// Both sides. Questions outside the class book leave nothing behind.
pub struct Beside<'a> {
    pub rows: &'a Rows,
    pub model: Book,
    pub book: MqBook,
    pub tally: Tally,
}

/// A call's words and numbers, for the message of a difference.
pub type Call<'a> = (&'a str, &'a [u32]);

/// The refusal's number, 0 where there is none.
pub fn number<T>(answer: &Answer<T>) -> u32 {
    answer.as_ref().err().copied().unwrap_or(0)
}

/// Lent memory before a call: byte n is 100 + n mod 100.
pub fn lent(length: usize) -> Vec<u8> {
    (0..length).map(|n| 100 + (n % 100) as u8).collect()
}

/// A lent row of floats before a call, by their bits: NaNs of both signs and many patterns, minus zero, an infinity, and
/// numbers.
pub fn lent_floats(length: usize) -> Vec<f32> {
    let bits = |n: usize| match n % 5 {
        0 => 0x7F80_0001 + n as u32,
        1 => 0x8000_0000,
        2 => 0xFFC0_0000 + n as u32,
        3 => 0x7F80_0000,
        _ => 0x3F80_0000 + n as u32,
    };
    (0..length).map(|n| f32::from_bits(bits(n))).collect()
}

pub fn expect<T: PartialEq + Debug>((name, numbers): Call, what: &str, library: T, model: T) {
    if library != model {
        eprintln!(
            "compare: {name} {numbers:?}: {what}: library {library:?}, second program {model:?}"
        );
        exit(1);
    }
}

/// Compares lent memory whole.
pub fn expect_memory(call: Call, library: &[u8], model: &[u8]) {
    let differing = library.iter().zip(model).position(|(ours, theirs)| ours != theirs);
    if let Some(place) = differing {
        let what = format!("lent memory, byte {place}");
        expect(call, &what, library[place], model[place]);
    }
    expect(call, "length of lent memory", library.len(), model.len());
}

/// Compares a lent row of floats whole, by their bits.
pub fn expect_floats(call: Call, library: &[f32], model: &[f32]) {
    let bits = |row: &[f32]| row.iter().map(|x| x.to_bits()).collect::<Vec<u32>>();
    let (library, model) = (bits(library), bits(model));
    let differing = library.iter().zip(&model).position(|(ours, theirs)| ours != theirs);
    if let Some(place) = differing {
        let what = format!("bits of lent float {place}");
        expect(call, &what, library[place], model[place]);
    }
    expect(call, "length of the lent row", library.len(), model.len());
}

/// What a call that writes into lent memory answers, as the library has it.
pub fn written(answer: &Answer<usize>) -> MqAnswer {
    answer.map_or_else(MqAnswer::refusing, |count| MqAnswer::giving(count as u32))
}

/// Over C a direction is a number: 0 up, 1 down, and one that is neither is refused as a factor that is none.
pub fn direction_and_factor(direction: u32, factor: u32) -> (Direction, u32) {
    match direction {
        0 => (Direction::Up, factor),
        1 => (Direction::Down, factor),
        _ => (Direction::Up, 0),
    }
}

/// A direction as it goes over C.
pub fn direction_number(direction: Direction) -> u32 {
    match direction {
        Direction::Up => 0,
        Direction::Down => 1,
    }
}

/// A question about a timeslot: burst type, direction, factor, TFCI bits, TPC bits.
pub fn question([burst_type, direction, factor, tfci_bits, tpc_bits]: [u32; 5]) -> Question {
    let (direction, factor) = direction_and_factor(direction, factor);
    Question { burst_type, direction, factor, tfci_bits, tpc_bits }
}

/// The label of a chip as the library answers it.
pub fn place(answer: Answer<Label>) -> MqPlace {
    match answer {
        Ok(label) => {
            MqPlace { refusal: 0, part: 1 + label.part as u32, number: label.number as u32 }
        }
        Err(refusal) => MqPlace { refusal, ..MqPlace::default() },
    }
}

/// A place in a midamble as it goes over C.
fn held(place: Place) -> MqBlockPlace {
    let Place { cell, burst_type, count, user, written } = place;
    MqBlockPlace { cell, burst: burst_type, count, user, written }
}

/// A float as the whole number that it is; nothing for a fraction, an infinity and a NaN. One beyond 64 bits becomes the
/// nearest that is not, which is as little a sample.
fn whole(float: f32) -> Option<i64> {
    (float.fract() == 0.0).then_some(float as i64)
}

/// Who is heard, as the library answers it.
fn heard(answer: Answer<Heard>) -> MqHear {
    match answer {
        Ok(Heard::Nobody) => MqHear::default(),
        Ok(Heard::User { user, re, im }) => {
            MqHear { refusal: 0, user, re: re as f32, im: im as f32 }
        }
        Err(refusal) => MqHear { refusal, ..MqHear::default() },
    }
}

fn parts(answer: &Answer<Timeslot>) -> MqParts {
    let mut wanted = MqParts { refusal: number(answer), ..MqParts::default() };
    if let Ok(slot) = answer {
        for (p, part) in slot.parts.iter().enumerate() {
            wanted.start[p] = part.start as u32;
            wanted.length[p] = part.length as u32;
        }
        wanted.bits = slot.data_bits.map(|bits| bits as u32);
    }
    wanted
}

impl<'a> Beside<'a> {
    pub fn new(rows: &'a Rows) -> Beside<'a> {
        Beside { rows, model: Book::empty(), book: library::empty_book(), tally: Tally::default() }
    }

    pub fn count(&mut self, refusal: u32) {
        self.tally.calls += 1;
        self.tally.by_refusal[refusal as usize] += 1;
    }

    // ---- midambles

    pub fn chip(&mut self, numbers: [u32; 5]) {
        let [cell, burst, count, user, i] = numbers;
        let wanted = midambles::one_chip(self.rows, cell, burst, count, user, i);
        self.chip_is(
            numbers,
            wanted.map_or_else(MqAnswer::refusing, |p| MqAnswer::giving(p.into())),
        );
    }

    /// The same, where the model's answer is known.
    pub fn chip_is(&mut self, numbers: [u32; 5], wanted: MqAnswer) {
        let [cell, burst, count, user, i] = numbers;
        let answer = library::chip(cell, burst, count, user, i);
        expect(("chip", &numbers), "answer", answer, wanted);
        self.count(wanted.refusal);
    }

    /// Gives the model's memory afterwards, and whether it was refused.
    pub fn midamble(&mut self, numbers: [u32; 4], length: usize) -> Answer<Vec<u8>> {
        let [cell, burst, count, user] = numbers;
        let (mut memory, mut expected) = (lent(length), lent(length));
        let wanted = midambles::whole_midamble(self.rows, cell, burst, count, user, &mut expected);
        let answer = library::midamble(cell, burst, count, user, &mut memory);
        let call = ("midamble", &numbers[..]);
        expect(call, "answer", answer, written(&wanted));
        expect_memory(call, &memory, &expected);
        self.count(number(&wanted));
        wanted.map(|_| expected)
    }

    // ---- midambles by the block

    /// Gives the place, or the refusal.
    pub fn block_start(&mut self, numbers: [u32; 4]) -> Answer<Place> {
        let [cell, burst, count, user] = numbers;
        let wanted = blocks::start(cell, burst, count, user);
        let answer = library::block_start(cell, burst, count, user);
        let place = wanted.map_or_else(|_| MqBlockPlace::default(), held);
        let expected = MqBlockStart { refusal: number(&wanted), place };
        expect(("block start", &numbers), "answer", answer, expected);
        self.count(number(&wanted));
        wanted
    }

    /// Gives the chips that were written, and the place that is handed back.
    pub fn block(&mut self, place: Place, room: usize) -> (Vec<u8>, Place) {
        let (mut memory, mut expected) = (lent(room), lent(room));
        let (wanted, next) = blocks::block(self.rows, place, &mut expected);
        let answer = library::block(held(place), &mut memory);
        let Place { cell, burst_type, count, user, written } = place;
        let call = ("block", &[cell, burst_type, count, user, written, room as u32][..]);
        let chips = wanted.unwrap_or(0);
        let block = MqBlock { refusal: number(&wanted), written: chips as u32, place: held(next) };
        expect(call, "answer", answer, block);
        expect_memory(call, &memory, &expected);
        self.count(number(&wanted));
        memory.truncate(chips);
        (memory, next)
    }

    /// The joined chips of a midamble's blocks are its chips, as the library fills them in one call.
    pub fn is_midamble(&mut self, numbers: [u32; 4], joined: &[u8]) {
        let [cell, burst, count, user] = numbers;
        let mut whole = lent(512);
        let answer = library::midamble(cell, burst, count, user, &mut whole);
        expect_memory(("blocks joined", &numbers), joined, &whole[..answer.value as usize]);
        self.count(answer.refusal);
    }

    // ---- the signal card

    pub fn pair(&mut self, numbers: [u32; 6]) {
        let [cell, burst, count, user, i, level] = numbers;
        let wanted = match signal_card::one_pair(self.rows, cell, burst, count, user, i, level) {
            Ok((re, im)) => MqPair { refusal: 0, re, im },
            Err(refusal) => MqPair { refusal, ..MqPair::default() },
        };
        self.pair_is(numbers, wanted);
    }

    /// The same, where the model's answer is known.
    pub fn pair_is(&mut self, numbers: [u32; 6], wanted: MqPair) {
        let [cell, burst, count, user, i, level] = numbers;
        let answer = library::pair(cell, burst, count, user, i, level);
        expect(("pair", &numbers), "answer", answer, wanted);
        self.count(wanted.refusal);
    }

    /// Gives the model's row afterwards, or the refusal.
    pub fn pairs(&mut self, numbers: [u32; 5], length: usize) -> Answer<Vec<f32>> {
        let [cell, burst, count, user, level] = numbers;
        let (mut row, mut expected) = (lent_floats(length), lent_floats(length));
        let wanted =
            signal_card::all_pairs(self.rows, cell, burst, count, user, level, &mut expected);
        let answer = library::pairs(cell, burst, count, user, level, &mut row);
        let call = ("pairs", &numbers[..]);
        expect(call, "answer", answer, written(&wanted));
        expect_floats(call, &row, &expected);
        self.count(number(&wanted));
        wanted.map(|_| expected)
    }

    // ---- who is on the air

    /// `what` names the row, for the message of a difference. It is only read: every float stays, to the bit.
    pub fn hear(&mut self, what: &str, numbers: [u32; 3], row: &[f32]) {
        let [cell, burst, count] = numbers;
        let lent = row.to_vec();
        let answer = library::hear(cell, burst, count, &lent);
        // The compiler takes it that nobody writes a shared slice: behind this it reads the row again.
        let lent = black_box(lent);
        let samples: Vec<Option<i64>> = row.iter().map(|float| whole(*float)).collect();
        let wanted = heard(hearing::hear(self.rows, cell, burst, count, &samples));
        let call = (what, &[cell, burst, count, row.len() as u32][..]);
        expect(call, "answer", answer, wanted);
        expect_floats(call, &lent, row);
        self.count(wanted.refusal);
    }

    // ---- timeslots and beacons

    pub fn parts(&mut self, numbers: [u32; 5]) -> Answer<Timeslot> {
        let [burst, direction, factor, tfci, tpc] = numbers;
        let wanted = timeslots::timeslot(&question(numbers));
        let answer = library::parts(burst, direction, factor, tfci, tpc);
        expect(("parts", &numbers), "answer", answer, parts(&wanted));
        self.count(number(&wanted));
        wanted
    }

    pub fn at(&mut self, numbers: [u32; 5], chip: u32) {
        self.at_is(numbers, chip, place(timeslots::at(&question(numbers), chip)));
    }

    /// The same, where the model's answer is known.
    pub fn at_is(&mut self, numbers: [u32; 5], chip: u32, wanted: MqPlace) {
        let [burst, direction, factor, tfci, tpc] = numbers;
        let answer = library::at(burst, direction, factor, tfci, tpc, chip);
        if answer != wanted {
            expect(("at", &numbers), &format!("answer at chip {chip}"), answer, wanted);
        }
        self.count(wanted.refusal);
    }

    pub fn beacon(&mut self, case: u32, k: u32) {
        let wanted = match beacon_timeslots(case, k).as_deref() {
            Ok([first]) => MqBeacons { refusal: 0, count: 1, first: *first, second: 0 },
            Ok([first, second]) => {
                MqBeacons { refusal: 0, count: 2, first: *first, second: *second }
            }
            Ok(more) => unreachable!("beacon timeslots are one or two: {more:?}"),
            Err(refusal) => MqBeacons { refusal: *refusal, ..MqBeacons::default() },
        };
        expect(("beacon", &[case, k]), "answer", library::beacon(case, k), wanted);
        self.count(wanted.refusal);
    }

    // ---- paging

    pub fn indicator(&mut self, numbers: [u32; 4]) {
        let [burst, length, frames, pi] = numbers;
        let call = ("indicator", &numbers[..]);
        let answer = library::indicator(burst, length, frames, pi);
        let wanted = paging::indicator(burst, length, frames, pi);
        match &wanted {
            Ok(place) => {
                let run = |first: u32| (first as usize..(first + answer.length) as usize).collect();
                expect(call, "refusal", answer.refusal, 0);
                expect(call, "frame", answer.frame as usize, place.frame);
                expect(call, "q", answer.q as usize, place.q);
                expect(call, "bits", &[run(answer.first), run(answer.second)], &place.bits);
            }
            Err(refusal) => {
                let refused = MqIndicator { refusal: *refusal, ..MqIndicator::default() };
                expect(call, "answer", answer, refused);
            }
        }
        self.count(number(&wanted));
    }

    pub fn owner(&mut self, numbers: [u32; 3]) {
        let [burst, length, bit] = numbers;
        let wanted = match paging::owner(burst, length, bit) {
            Ok(Some(q)) => MqOwner { refusal: 0, reserved: 0, q: q as u32 },
            Ok(None) => MqOwner { refusal: 0, reserved: 1, q: 0 },
            Err(refusal) => MqOwner { refusal, ..MqOwner::default() },
        };
        expect(("owner", &numbers), "answer", library::owner(burst, length, bit), wanted);
        self.count(wanted.refusal);
    }

    /// Gives the memory afterwards.
    pub fn page(&mut self, [burst, length]: [u32; 2], settings: &[u8], room: usize) -> Vec<u8> {
        let (mut memory, mut expected) = (lent(room), lent(room));
        let wanted = paging::write(burst, length, settings, &mut expected);
        let answer = library::page(burst, length, settings, &mut memory);
        let call = ("page", &[burst, length, settings.len() as u32, room as u32][..]);
        expect(call, "answer", answer, written(&wanted));
        expect_memory(call, &memory, &expected);
        self.count(number(&wanted));
        memory
    }

    pub fn read(&mut self, [burst, length]: [u32; 2], bits: &[u8], room: usize) {
        let (mut memory, mut expected) = (lent(room), lent(room));
        let wanted = paging::read(burst, length, bits, &mut expected);
        let answer = library::read(burst, length, bits, &mut memory);
        let call = ("read", &[burst, length, bits.len() as u32, room as u32][..]);
        expect(call, "answer", answer, written(&wanted));
        expect_memory(call, &memory, &expected);
        self.count(number(&wanted));
    }
}
