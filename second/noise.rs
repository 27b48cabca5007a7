//! Random bytes for the program's input: `second noise SEED BYTES`. The same seed gives the same bytes.

use crate::dice::Dice;
use crate::lesson::LONGEST_LINE;
use crate::random::Writer;
use crate::rows::Rows;
use crate::scribbles::stretched;
use std::io::{self, Write};

/// Bytes that mean something in a lesson.
const ALPHABET: &[u8] = b"  \t\r\n##0123456789abcdefiklmnoprstuwy.,+-|\0";

/// Prints that many bytes. The seed decides whether the last one is a LF or none.
pub fn print(out: &mut dyn Write, seed: u64, bytes: u64, rows: &Rows) -> io::Result<()> {
    let mut dice = Dice::new(!seed);
    let mut writer = Writer::new(seed, rows);
    let last_byte = dice.pick(b"\n\n7\0\r#");
    let mut line = Vec::new();
    let mut left = bytes;
    while left > 0 {
        let mut piece = piece(&mut dice, &mut writer);
        piece.truncate(usize::try_from(left).unwrap_or(usize::MAX));
        left -= piece.len() as u64;
        if let (0, Some(last)) = (left, piece.last_mut()) {
            *last = last_byte;
        }
        follow(&mut writer, &mut line, &piece);
        out.write_all(&piece)?;
    }
    Ok(())
}

/// Lets the writer follow the lines as they come out; `line` is the one that has not ended yet.
fn follow(writer: &mut Writer, line: &mut Vec<u8>, piece: &[u8]) {
    for byte in piece {
        if *byte == b'\n' {
            writer.follow(line);
            line.clear();
        } else {
            line.push(*byte);
        }
    }
}

/// A few bytes, at least one.
fn piece(dice: &mut Dice, writer: &mut Writer) -> Vec<u8> {
    match dice.below(200) {
        0..=4 => raw_bytes(dice),
        5..=9 => bytes_of_the_alphabet(dice),
        10..=14 => run_of_one_byte(dice),
        15 | 16 => with_line_end(stretched(dice, &writer.suggest()).into_bytes()),
        17 => very_long_line(dice),
        18..=67 => with_line_end(with_a_byte_damaged(dice, writer.suggest().into_bytes())),
        _ => with_line_end(writer.suggest().into_bytes()),
    }
}

fn with_line_end(mut line: Vec<u8>) -> Vec<u8> {
    line.push(b'\n');
    line
}

/// Any bytes at all, with no line end but by chance.
fn raw_bytes(dice: &mut Dice) -> Vec<u8> {
    let length = dice.between(1, 300);
    (0..length).map(|_| dice.byte()).collect()
}

/// Bytes that mean something, in no order.
fn bytes_of_the_alphabet(dice: &mut Dice) -> Vec<u8> {
    let length = dice.between(1, 120);
    (0..length).map(|_| dice.pick(ALPHABET)).collect()
}

/// The same byte a few times: NULs, LFs, CRs and others.
fn run_of_one_byte(dice: &mut Dice) -> Vec<u8> {
    let byte = dice.pick(b"\0\0\0\n\n\r\t #\x0b\x1a\x7f\x80\xff");
    vec![byte; dice.between(1, 40) as usize]
}

/// A line about as long as a line may be, or far longer, of one byte or of any bytes.
fn very_long_line(dice: &mut Dice) -> Vec<u8> {
    let edge = LONGEST_LINE as u32;
    let longest = dice.pick(&[edge + 1, edge + 2, edge + 100, 2 * edge, 20000]);
    let length = dice.between(edge - 1, longest);
    let byte = dice.pick(b"0 1x\0#\t\r\xff");
    let any = dice.one_in(2);
    let line = (0..length)
        .map(|_| if any { dice.byte() } else { byte })
        .filter(|byte| *byte != b'\n')
        .collect();
    with_line_end(line)
}

/// The line with one byte replaced, turned in one bit, put in, taken out or doubled.
fn with_a_byte_damaged(dice: &mut Dice, mut line: Vec<u8>) -> Vec<u8> {
    if line.is_empty() {
        return line;
    }
    let place = dice.place(line.len());
    let byte = if dice.one_in(2) { dice.byte() } else { dice.pick(ALPHABET) };
    match dice.below(5) {
        0 => line[place] = byte,
        1 => line[place] ^= 1 << dice.below(8),
        2 => line.insert(place, byte),
        3 => {
            line.remove(place);
        }
        _ => line.insert(place, line[place]),
    }
    line
}
