//! How the calls of random lessons are spelled and spoiled: damaged numbers, odd blanks, lines that are no call.

use crate::calls::MOST_DIGITS;
use crate::dice::Dice;
use crate::lesson::LONGEST_LINE;

/// Numbers on both sides of a rule's edge, and of the edges of 8, 16, 31 and 32 bits.
const EDGES: [u32; 38] = [
    0, 1, 2, 3, 4, 5, 6, 7, 8, 9, 10, 11, 13, 14, 15, 16, 17, 32, 39, 40, 41, 64, 127, 128, 255,
    256, 257, 512, 513, 2047, 2048, 2559, 2560, 65535, 65536, 2147483647, 2147483648, 4294967294,
];

/// Words that stand where a number is expected and are none.
const NO_NUMBERS: [&str; 16] = [
    "-1",
    "+1",
    "1.0",
    "0x10",
    "4294967296",
    "4294967297",
    "42949672950",
    "04294967296",
    "99999999999999999999",
    "18446744073709551616",
    "18446744073709551617",
    "1e1",
    "one",
    "1,",
    "up",
    "\u{ff11}",
];

/// Words that stand where `up` or `down` is expected and are neither.
const NO_DIRECTIONS: [&str; 7] = ["Up", "DOWN", "left", "u", "downs", "1", "up|down"];

/// Lines that begin with no call's word.
const NO_CALLS: [&str; 24] = [
    "opens 3 0 1 0 0 0",
    "Open 3 0 1 0 0 0",
    "BOOK 3 2 down 1 16 3 4 0 0",
    "reset",
    "quit",
    "ok",
    "3",
    "list, 3",
    "-",
    "refused 14",
    "HELP 1",
    "boo k 1",
    "\u{f6}ffne 3",
    "clos 3",
    "pai 0 1 16 8 1 5",
    "Pairs 0 1 16 8 5",
    "blocks 0 1 16 8 0 64",
    "Block 0 1 16 8 0 64",
    "summar 3 2",
    "summarys 3 2",
    "Summary 3 2",
    "hea 0 1 16 1 0",
    "hears 0 1 16",
    "Hear 0 1 16 1 -1",
];

/// A number in place of the right one.
fn damaged_number(dice: &mut Dice, right: u32) -> u32 {
    match dice.below(8) {
        0 | 1 => dice.pick(&EDGES),
        2 => right.wrapping_add(1),
        3 => right.wrapping_sub(1),
        4 => u32::MAX,
        5 => right.wrapping_add(dice.pick(&[1 << 8, 1 << 16, 1 << 24, 1 << 31])),
        6 => dice.below(40),
        _ => dice.number(),
    }
}

/// A place among those of the words that are right by `wanted`, or nothing if there is none.
fn some_place(dice: &mut Dice, words: &[String], wanted: fn(&str) -> bool) -> Option<usize> {
    let places: Vec<usize> = (1..words.len()).filter(|place| wanted(&words[*place])).collect();
    if places.is_empty() {
        None
    } else {
        Some(dice.pick(&places))
    }
}

fn is_number(word: &str) -> bool {
    word.parse::<u32>().is_ok()
}

fn is_direction(word: &str) -> bool {
    word == "up" || word == "down"
}

fn words_of(call: &str) -> Vec<String> {
    call.split(' ').map(str::to_string).collect()
}

/// The most words of a call without samples.
const MOST_WORDS: usize = 10;

/// The call with one number damaged, or two, or more. Where it has many samples, every other time one near its start.
pub fn damaged(dice: &mut Dice, call: &str) -> String {
    let mut words = words_of(call);
    let most = if dice.one_in(2) { words.len() } else { words.len().min(MOST_WORDS) };
    while let Some(place) = some_place(dice, &words[..most], is_number) {
        let right = words[place].parse().expect("a number stands there");
        words[place] = damaged_number(dice, right).to_string();
        if !dice.one_in(3) {
            break;
        }
    }
    words.join(" ")
}

/// How many zeros may stand in front of a word: none where it is no number, and before a sample as many as make six
/// digits of it.
fn most_zeros(is_sample: bool, word: &str) -> u32 {
    match is_number(word) && word.len() < 11 {
        true if is_sample => MOST_DIGITS.saturating_sub(word.len()) as u32,
        true => 14,
        false => 0,
    }
}

/// The same call with odd blanks, zeros in front and a comment behind.
pub fn oddly_spelled(dice: &mut Dice, call: &str) -> String {
    let blanks = [" ", "  ", "\t", "\r", " \t ", "\r\r"];
    let words = words_of(call);
    let mut line = dice.pick(&["", " ", "\t", "\r"]).to_string();
    for (place, word) in words.iter().enumerate() {
        if place > 0 {
            line.push_str(dice.pick(&blanks));
        }
        let most = most_zeros(words[0] == "hear" && place > 3, word);
        if most > 0 && dice.one_in(4) {
            line.push_str(&"0".repeat(dice.between(1, most) as usize));
        }
        line.push_str(word);
    }
    line.push_str(dice.pick(&["", "\r", "  ", "#", "# a remark", " #close 1", "\t## #"]));
    line
}

/// A line of blanks or a comment, which passes without a reply.
fn silent(dice: &mut Dice) -> String {
    dice.pick(&[
        "",
        " ",
        "\t",
        "\r",
        " \t\r ",
        "#",
        "# close 3",
        "  # list 0",
        "##",
        "#\u{e4}\u{f6}\u{fc}",
    ])
    .to_string()
}

/// The call with one of its words replaced, or the call as it is where it has no such word.
fn with_word_replaced(dice: &mut Dice, call: &str, old: fn(&str) -> bool, new: &[&str]) -> String {
    let mut words = words_of(call);
    if let Some(place) = some_place(dice, &words, old) {
        words[place] = dice.pick(new).to_string();
    }
    words.join(" ")
}

/// The call without one of its words.
fn without_a_word(dice: &mut Dice, call: &str) -> String {
    let mut words = words_of(call);
    words.remove(dice.place(words.len()));
    words.join(" ")
}

/// The call with a further word.
fn with_a_word(dice: &mut Dice, call: &str) -> String {
    let mut words = words_of(call);
    let place = dice.place(words.len() + 1);
    words.insert(place, dice.pick(&["0", "1", "16", "up", "x", "list"]).to_string());
    words.join(" ")
}

/// The call with two of its words glued together.
fn glued(dice: &mut Dice, call: &str) -> String {
    let glue = dice.pick(&["", ",", "_", "\u{b}", "\u{c}", "\0", "\u{a0}"]);
    call.replacen(' ', glue, 1)
}

/// The call made about as long as a line may be, or longer, or shorter, by a comment, blanks, or zeros in front of its
/// last word.
pub fn stretched(dice: &mut Dice, call: &str) -> String {
    let edge = LONGEST_LINE as u32;
    let length = match dice.below(6) {
        0 => edge,
        1 => edge + 1,
        2 => dice.between(edge - 3, edge + 3),
        3 => dice.between(edge, edge + 4000),
        _ => dice.between(100, 1100),
    } as usize;
    let missing = length.saturating_sub(call.len());
    match dice.below(4) {
        0 => format!("{call}{}", " ".repeat(missing)),
        1 => format!("{}{call}", "\t".repeat(missing)),
        2 => format!("{call}{}", "#".repeat(missing)),
        _ => {
            let mut words = words_of(call);
            let last = words.pop().unwrap_or_default();
            words.push(format!("{}{last}", "0".repeat(missing)));
            words.join(" ")
        }
    }
}

/// A line made from a call: mostly it is no call any more, now and then it still is one. One is seldom stretched, since
/// that makes it long.
pub fn scribbled(dice: &mut Dice, call: &str) -> String {
    match dice.below(12) {
        0 | 1 => silent(dice),
        2 => dice.pick(&NO_CALLS).to_string(),
        3 => without_a_word(dice, call),
        4 => with_a_word(dice, call),
        5 | 6 => with_word_replaced(dice, call, is_number, &NO_NUMBERS),
        7 => with_word_replaced(dice, call, is_direction, &NO_DIRECTIONS),
        8 => format!("page 1 2 {}{}", "01".repeat(30), dice.pick(&["2", "x", " 1", "-"])),
        9 => glued(dice, call),
        10 if dice.one_in(4) => stretched(dice, call),
        _ => oddly_spelled(dice, call),
    }
}
