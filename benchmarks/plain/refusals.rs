//! The words of the refusals.

use library::MqAnswer;

pub const WORDS: [&str; 25] = [
    "",
    "cell parameter above 127",
    "burst type not 1, 2 or 3",
    "midamble count not 4, 8 or 16 (types 1, 3), not 3 or 6 (type 2); in opening a seat 0 is allowed too",
    "user not permitted under the count (in a booking: outside 1..16 for types 1, 3; 1..6 for type 2)",
    "timeslot above 14",
    "spreading factor not 1, 2, 4, 8, 16; code index outside 1..factor; where a direction is given, downlink with a factor other than 1 or 16",
    "type 3 in downlink",
    "TFCI bits not 0, 4, 8, 16, 32; TPC bits not 0 or 2; TPC 2 in downlink",
    "synchronisation case not 1 or 2; k above 14 (case 1) or above 6 (case 2)",
    "PICH with type 3; indicator length not 2, 4, 8; frames per block outside 1..4; indicator number too large; paging bit outside the 244 or 276; timeslot chip above 2559; midamble chip outside 1 to its length",
    "lent memory, read or written, shorter than the call needs (a list: fewer than 40 records, however few it writes)",
    "the book breaks its conditions",
    "seat above 15",
    "seat not open",
    "seat open already",
    "user not permitted under this seat's count",
    "clash inside this seat's own cell",
    "beacon rule",
    "seat holds 40",
    "common room used up",
    "no such booking",
    "level not 1 to 2047",
    "place above the midamble length",
    "sample not a whole number from -2047 to 2047",
];

#[inline(never)]
pub fn refusal_text(number: u32, out: &mut [u8]) -> MqAnswer {
    let words = WORDS.get(number as usize).unwrap_or(&"").as_bytes();
    if out.len() < words.len() {
        return MqAnswer::refusing(11);
    }
    out[..words.len()].copy_from_slice(words);
    MqAnswer::giving(words.len() as u32)
}
