//! The words of the refusals.

use crate::dice::same;
use crate::plain::refusals as plain;
use crate::table::Line;
use std::hint::black_box;

pub fn compare() -> u32 {
    let mut compared = 0;
    for number in (0..=40).chain([u32::MAX]) {
        for length in 0..=300 {
            let (mut a, mut b) = ([0xA5; 300], [0xA5; 300]);
            let r = library::refusal_text(number, &mut a[..length]);
            same((r, a), (plain::refusal_text(number, &mut b[..length]), b), || {
                format!("the words of {number}, {length} bytes lent")
            });
            compared += 1;
        }
    }
    compared
}

pub fn lines() -> Vec<Line> {
    let (mut ours, mut theirs) = ([0; 256], [0; 256]);
    let inputs = (0..20).flat_map(|_| 1..plain::WORDS.len() as u32).collect();
    let library = move |&number: &u32| library::refusal_text(number, black_box(&mut ours));
    vec![Line::new("refusal text", inputs, library, move |&number| {
        plain::refusal_text(number, black_box(&mut theirs))
    })]
}
