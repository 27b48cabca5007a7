//! Paging bits.

use crate::dice::{same, Dice};
use crate::limits;
use crate::plain::paging as plain;
use crate::table::Line;
use std::hint::black_box;

fn compare_places() -> u32 {
    let mut compared = 0;
    for burst in (0..=4).chain([u32::MAX]) {
        for length in (0..=17).chain([u32::MAX]) {
            for frames in (0..=5).chain([u32::MAX]) {
                for number in (0..=280).chain([u32::MAX]) {
                    same(
                        library::indicator(burst, length, frames, number),
                        plain::indicator(burst, length, frames, number),
                        || format!("indicator {burst} {length} {frames} {number}"),
                    );
                    compared += 1;
                }
            }
            for bit in (0..=300).chain([u32::MAX]) {
                same(library::owner(burst, length, bit), plain::owner(burst, length, bit), || {
                    format!("owner {burst} {length} {bit}")
                });
                compared += 1;
            }
        }
    }
    compared
}

/// Bytes in runs, about half of them 0, the others any.
fn thrown(dice: &mut Dice) -> [u8; 300] {
    let run = dice.one_of(&[1, 2, 4, 8]);
    let mut row = [0; 300];
    for place in 0..300 {
        row[place] = if place % run == 0 || dice.below(50) == 0 {
            (dice.below(2) * (1 + dice.below(255))) as u8
        } else {
            row[place - 1]
        };
    }
    row
}

/// Pages written and read, with lent memory of lengths around the needed ones.
fn compare_pages() -> u32 {
    let mut dice = Dice::new(1);
    let mut compared = 0;
    for burst in 0..=4 {
        for length in [0, 1, 2, 3, 4, 6, 8, 9, 16, u32::MAX] {
            for lent in
                [0, 14, 15, 16, 17, 29, 30, 33, 34, 59, 60, 67, 68, 69, 243, 244, 275, 276, 300]
            {
                for out in
                    [0, 14, 15, 16, 17, 29, 30, 33, 34, 59, 60, 67, 68, 69, 243, 244, 275, 276, 300]
                {
                    let row = thrown(&mut dice);
                    let what = || {
                        format!(
                            "page or read {burst} {length}, {lent} and {out} bytes lent: {row:?}"
                        )
                    };
                    let (mut a, mut b) = ([0xA5; 300], [0xA5; 300]);
                    let r = library::page(burst, length, &row[..lent], &mut a[..out]);
                    same(
                        (r, a),
                        (plain::page(burst, length, &row[..lent], &mut b[..out]), b),
                        what,
                    );
                    let mut torn = a;
                    for _ in 0..dice.below(8) {
                        torn[dice.below(300) as usize] = dice.below(3) as u8;
                    }
                    for bits in [row, a, torn] {
                        let (mut c, mut d) = ([0x5A; 300], [0x5A; 300]);
                        let r = library::read(burst, length, &bits[..lent], &mut c[..out]);
                        same(
                            (r, c),
                            (plain::read(burst, length, &bits[..lent], &mut d[..out]), d),
                            what,
                        );
                    }
                    compared += 4;
                }
            }
        }
    }
    compared
}

pub fn compare() -> u32 {
    compare_places() + compare_pages()
}

fn pages((burst, length): (u32, u32)) -> Line {
    let mut dice = Dice::new(2);
    let inputs = (0..64).map(|_| thrown(&mut dice)).collect();
    let n = if burst == 1 { 120 } else { 136 } / length as usize;
    let (mut ours, mut theirs) = ([0; 276], [0; 276]);
    let library = move |settings: &[u8; 300]| {
        library::page(burst, length, &settings[..n], black_box(&mut ours))
    };
    let plain = move |settings: &[u8; 300]| {
        plain::page(burst, length, &settings[..n], black_box(&mut theirs))
    };
    let what = format!("page, type {burst}, L {length}");
    Line::new(what, inputs, library, plain).with_limit(&limits::PAGE)
}

/// Pages as they are written, a few bits of each changed.
fn reads((burst, length): (u32, u32)) -> Line {
    let mut dice = Dice::new(3);
    let mut page = || {
        let mut bits = [0; 276];
        plain::page(burst, length, &thrown(&mut dice), &mut bits);
        for _ in 0..4 {
            bits[dice.below(276) as usize] = dice.below(2) as u8;
        }
        bits
    };
    let inputs = (0..64).map(|_| page()).collect();
    let (mut ours, mut theirs) = ([0; 68], [0; 68]);
    let library = move |bits: &[u8; 276]| library::read(burst, length, bits, black_box(&mut ours));
    let plain = move |bits: &[u8; 276]| plain::read(burst, length, bits, black_box(&mut theirs));
    Line::new(format!("read, type {burst}, L {length}"), inputs, library, plain)
}

const KINDS: [(u32, u32); 6] = [(1, 2), (1, 4), (1, 8), (2, 2), (2, 4), (2, 8)];

pub fn lines() -> Vec<Line> {
    let indicators = KINDS
        .iter()
        .flat_map(|&(burst, length)| (0..240).map(move |i| (burst, length, 4, i * 7 % 60)))
        .collect();
    let owners = KINDS
        .iter()
        .flat_map(|&(burst, length)| (0..244).map(move |i| (burst, length, i * 7 % 244)))
        .collect();
    let mut lines = vec![
        Line::new(
            "indicator",
            indicators,
            |&(a, b, c, d)| library::indicator(a, b, c, d),
            |&(a, b, c, d)| plain::indicator(a, b, c, d),
        ),
        Line::new(
            "owner",
            owners,
            |&(a, b, c)| library::owner(a, b, c),
            |&(a, b, c)| plain::owner(a, b, c),
        ),
    ];
    lines.extend(KINDS.map(pages));
    lines.extend(KINDS.map(reads));
    lines
}
