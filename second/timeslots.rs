//! Document 01, "Parts of a timeslot (clause 5.2.2)".

use crate::refusals::{refuse_if, refuse_unknown_type, Answer};

/// Chips of a timeslot.
pub const CHIPS: usize = 2560;

/// The timeslots of a frame are 0 to 14.
pub const LAST_TIMESLOT: u32 = 14;

/// The field lengths, burst type by field: data 1, midamble, data 2, guard.
const FIELDS: [[usize; 4]; 3] = [[976, 512, 976, 96], [1104, 256, 1104, 96], [976, 512, 880, 192]];

/// Up or down, there is no third.
#[derive(Clone, Copy, PartialEq, Debug)]
pub enum Direction {
    Up,
    Down,
}

impl Direction {
    /// The direction's word.
    pub fn word(self) -> &'static str {
        match self {
            Direction::Up => "up",
            Direction::Down => "down",
        }
    }
}

/// The seven parts, in time order.
#[derive(Clone, Copy, PartialEq)]
pub enum Part {
    Data1,
    Tfci1,
    Midamble,
    Tpc,
    Tfci2,
    Data2,
    Guard,
}

impl Part {
    /// The part's word in docs/LESSONS.md.
    fn word(self) -> &'static str {
        match self {
            Part::Data1 => "data1",
            Part::Tfci1 => "tfci1",
            Part::Midamble => "midamble",
            Part::Tpc => "tpc",
            Part::Tfci2 => "tfci2",
            Part::Data2 => "data2",
            Part::Guard => "guard",
        }
    }
}

/// A question about a timeslot. (A code index is not asked: 6 holds "factor and direction only".)
#[derive(Clone, Copy)]
pub struct Question {
    pub burst_type: u32,
    pub direction: Direction,
    pub factor: u32,
    pub tfci_bits: u32,
    pub tpc_bits: u32,
}

/// What lies at a chip: the part, with the offset in it (midamble, guard) or the symbol number in it (data, control).
#[derive(Clone, Copy)]
pub struct Label {
    pub part: Part,
    pub number: usize,
}

/// Where a part lies.
pub struct Stretch {
    pub start: usize,
    pub length: usize,
}

/// A timeslot: each chip with its label, and the seven parts.
pub struct Timeslot {
    pub chips: Vec<Label>,
    pub parts: Vec<Stretch>,
    /// The bits of data 1 and of data 2.
    pub data_bits: [usize; 2],
}

impl Timeslot {
    /// Puts the next part behind what is there. Its label counts up every `chips_per_count` chips.
    fn append(&mut self, part: Part, length: usize, chips_per_count: usize) {
        self.parts.push(Stretch { start: self.chips.len(), length });
        for offset in 0..length {
            self.chips.push(Label { part, number: offset / chips_per_count });
        }
    }
}

/// Refusal 6, the spreading factor by itself.
pub fn refuse_bad_factor(factor: u32) -> Answer<()> {
    refuse_if(![1, 2, 4, 8, 16].contains(&factor), 6)
}

/// Refusal 7: type 3 in downlink.
pub fn refuse_downlink_type_3(burst_type: u32, direction: Direction) -> Answer<()> {
    refuse_if(burst_type == 3 && direction == Direction::Down, 7)
}

/// Refusal 8: the TFCI and TPC bits.
pub fn refuse_bad_control(direction: Direction, tfci_bits: u32, tpc_bits: u32) -> Answer<()> {
    refuse_if(![0, 4, 8, 16, 32].contains(&tfci_bits), 8)?;
    refuse_if(![0, 2].contains(&tpc_bits), 8)?;
    refuse_if(tpc_bits == 2 && direction == Direction::Down, 8)
}

/// Refusals 2, 6 (factor and direction only), 7, 8.
fn refusals(question: &Question) -> Answer<()> {
    let Question { burst_type, direction, factor, tfci_bits, tpc_bits } = *question;
    let down = direction == Direction::Down;
    refuse_unknown_type(burst_type)?;
    refuse_bad_factor(factor)?;
    refuse_if(down && ![1, 16].contains(&factor), 6)?;
    refuse_downlink_type_3(burst_type, direction)?;
    refuse_bad_control(direction, tfci_bits, tpc_bits)
}

/// "A symbol is 2 bits (QPSK only)": the chips of a run of bits.
fn chips_of_bits(bits: usize, chips_per_symbol: usize) -> usize {
    bits / 2 * chips_per_symbol
}

/// The bits carried by a run of chips.
fn bits_of_chips(chips: usize, chips_per_symbol: usize) -> usize {
    chips / chips_per_symbol * 2
}

/// The parts of a timeslot. Refusals 2, 6, 7, 8.
pub fn timeslot(question: &Question) -> Answer<Timeslot> {
    refusals(question)?;
    let [field_1, midamble, field_2, guard] = FIELDS[question.burst_type as usize - 1];

    // "A data symbol takes as many chips as the spreading factor. A control symbol takes the same in downlink, and
    // always 16 in uplink."
    let data_symbol = question.factor as usize;
    let control_symbol = match question.direction {
        Direction::Down => data_symbol,
        Direction::Up => 16,
    };

    // "Control eats into the data field beside it."
    let half_tfci = chips_of_bits(question.tfci_bits as usize / 2, control_symbol);
    let tpc = chips_of_bits(question.tpc_bits as usize, control_symbol);
    let data_1 = field_1 - half_tfci;
    let data_2 = field_2 - tpc - half_tfci;

    let data_bits = [bits_of_chips(data_1, data_symbol), bits_of_chips(data_2, data_symbol)];
    let mut slot = Timeslot { chips: Vec::new(), parts: Vec::new(), data_bits };
    slot.append(Part::Data1, data_1, data_symbol);
    slot.append(Part::Tfci1, half_tfci, control_symbol);
    slot.append(Part::Midamble, midamble, 1);
    slot.append(Part::Tpc, tpc, control_symbol);
    slot.append(Part::Tfci2, half_tfci, control_symbol);
    slot.append(Part::Data2, data_2, data_symbol);
    slot.append(Part::Guard, guard, 1);
    Ok(slot)
}

/// The reverse question: what lies at a chip. Refusals 2, 6, 7, 8, 10.
pub fn at(question: &Question, chip: u32) -> Answer<Label> {
    let slot = timeslot(question)?;
    refuse_if(chip as usize >= CHIPS, 10)?;
    Ok(slot.chips[chip as usize])
}

/// Seven START+LENGTH and `bits B1 B2`.
pub fn parts_words(slot: &Timeslot) -> String {
    let mut words = String::new();
    for Stretch { start, length } in &slot.parts {
        words.push_str(&format!("{start}+{length} "));
    }
    let [bits_1, bits_2] = slot.data_bits;
    words.push_str(&format!("bits {bits_1} {bits_2}"));
    words
}

/// The part's word and the offset or symbol number.
pub fn label_words(label: Label) -> String {
    format!("{} {}", label.part.word(), label.number)
}
