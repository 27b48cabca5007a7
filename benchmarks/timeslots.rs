//! Parts of a timeslot, what lies at a chip, and beacon timeslots.

use crate::dice::same;
use crate::plain::timeslots as plain;
use crate::table::Line;

type Question = [u32; 5];

/// Burst type, direction, factor, TFCI bits and TPC bits, and the numbers just outside.
fn questions() -> Vec<Question> {
    let mut row = Vec::new();
    for burst in [0, 1, 2, 3, 4, u32::MAX] {
        for direction in [0, 1, 2, u32::MAX] {
            for factor in (0..=17).chain([32, u32::MAX]) {
                for tfci in (0..=33).chain([u32::MAX]) {
                    for tpc in [0, 1, 2, 3, u32::MAX] {
                        row.push([burst, direction, factor, tfci, tpc]);
                    }
                }
            }
        }
    }
    row
}

fn answered() -> Vec<Question> {
    questions()
        .into_iter()
        .filter(|&[a, b, c, d, e]| library::parts(a, b, c, d, e).refusal == 0)
        .collect()
}

pub fn compare() -> u32 {
    let mut compared = 0;
    for x in questions() {
        let [burst, direction, factor, tfci, tpc] = x;
        let r = library::parts(burst, direction, factor, tfci, tpc);
        same(r, plain::parts(burst, direction, factor, tfci, tpc), || format!("parts {x:?}"));
        let chips = if r.refusal == 0 { 0..2562 } else { 2559..2561 };
        for chip in chips.chain([u32::MAX]) {
            same(
                library::at(burst, direction, factor, tfci, tpc, chip),
                plain::at(burst, direction, factor, tfci, tpc, chip),
                || format!("at {x:?} {chip}"),
            );
            compared += 1;
        }
        compared += 1;
    }
    for sync in (0..=4).chain([u32::MAX]) {
        for k in (0..=20).chain([u32::MAX]) {
            same(library::beacon(sync, k), plain::beacon(sync, k), || format!("beacon {sync} {k}"));
            compared += 1;
        }
    }
    compared
}

pub fn lines() -> Vec<Line> {
    let parts: Vec<Question> = (0..10).flat_map(|_| answered()).collect();
    let chips = answered()
        .into_iter()
        .flat_map(|x| (0..16).map(move |i| (x, (i * 163 + 11) % 2560)))
        .collect();
    let beacons =
        (0..200).flat_map(|_| (0..15).map(|k| (1, k)).chain((0..7).map(|k| (2, k)))).collect();
    vec![
        Line::new(
            "parts",
            parts,
            |&[a, b, c, d, e]| library::parts(a, b, c, d, e),
            |&[a, b, c, d, e]| plain::parts(a, b, c, d, e),
        ),
        Line::new(
            "at",
            chips,
            |&([a, b, c, d, e], i)| library::at(a, b, c, d, e, i),
            |&([a, b, c, d, e], i)| plain::at(a, b, c, d, e, i),
        ),
        Line::new(
            "beacon",
            beacons,
            |&(sync, k)| library::beacon(sync, k),
            |&(sync, k)| plain::beacon(sync, k),
        ),
    ]
}
