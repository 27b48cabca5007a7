//! Who is on the air: the whole call beside plain Rust, and, where volk is there, the sums alone and the whole call beside
//! volk's dot products (volk.rs).

use crate::dice::{same, Dice};
use crate::limits;
use crate::plain::hearing as plain;
use crate::plain::midambles::code_of;
use crate::table::Line;
use library::MqHear;
use std::rc::Rc;

type Hear = fn(u32, u32, u32, &[f32]) -> MqHear;

/// One user after the other, and four at once.
const FORMS: [Hear; 2] = [plain::hear, plain::hear_by_fours];

/// The sums of sixteen users inside the library (crates/correlating).
pub mod inside {
    mod c {
        extern "C" {
            pub fn correlating_sums(
                cell: u32,
                row: *const f32,
                row_length: usize,
                times: u32,
                out: *mut f32,
                out_length: usize,
            ) -> u32;
        }
    }

    /// The sums of users 1 to 16 of a long code, so many times; the samples are tested once, and the signs of the code's
    /// row prepared once. u32::MAX where something is too short, no sample, or no cell.
    pub fn correlate(cell: u32, row: &[f32], times: u32, out: &mut [f32]) -> u32 {
        // SAFETY: plain numbers, and pointers with the lengths of slices that are ours alone for the call.
        unsafe {
            c::correlating_sums(cell, row.as_ptr(), row.len(), times, out.as_mut_ptr(), out.len())
        }
    }
}

/// An answer by its bits: minus zero is not zero.
fn bits(heard: MqHear) -> [u32; 4] {
    [heard.refusal, heard.user, heard.re.to_bits(), heard.im.to_bits()]
}

/// One row by the library and by each form of plain Rust.
fn heard(cell: u32, burst: u32, count: u32, row: &[f32]) -> u32 {
    let ours = bits(library::hear(cell, burst, count, row));
    for plain in FORMS {
        same(ours, bits(plain(cell, burst, count, row)), || {
            format!("hear {cell} {burst} {count}, {} floats lent", row.len())
        });
    }
    1
}

/// The greatest count of a type.
fn most(burst: u32) -> u32 {
    if burst == 2 {
        6
    } else {
        16
    }
}

/// A whole number from -n to n.
fn sample(dice: &mut Dice, n: u32) -> f32 {
    dice.below(2 * n + 1) as f32 - n as f32
}

/// A user at a level, added to what is there.
fn add(row: &mut [f32], cell: u32, burst: u32, user: u32, level: u32) {
    let mut clean = [0.0; 1024];
    library::pairs(cell, burst, most(burst), user, level, &mut clean);
    for (x, y) in row.iter_mut().zip(clean) {
        *x += y;
    }
}

/// A user at a level, and noise up to so much in each sample, cut off at -2047 and 2047.
pub fn noisy(
    dice: &mut Dice,
    cell: u32,
    burst: u32,
    user: u32,
    level: u32,
    noise: u32,
) -> Vec<f32> {
    let mut row: Vec<f32> = (0..2 * code_of(burst).length).map(|_| sample(dice, noise)).collect();
    add(&mut row, cell, burst, user, level);
    row.iter().map(|x| x.clamp(-2047.0, 2047.0)).collect()
}

/// Rows for a cell: clean ones, noisy ones, two users on the air, noise alone, the greatest sums, ties, silence.
pub fn rows(dice: &mut Dice, cell: u32, burst: u32) -> Vec<Vec<f32>> {
    let chips = code_of(burst).length;
    let mut rows = Vec::new();
    for user in 1..=most(burst) {
        let level = dice.one_of(&[1, 2, 1000, 2047]);
        let noise = dice.one_of(&[1, 100, 1500]);
        rows.push(noisy(dice, cell, burst, user, level, 0));
        rows.push(noisy(dice, cell, burst, user, level, noise));
        let mut two = noisy(dice, cell, burst, user, 700, 10);
        add(&mut two, cell, burst, 1 + dice.below(most(burst)), 700);
        rows.push(two);
        // Both parts at every chip 2047, with the signs that add up.
        let mut full = noisy(dice, cell, burst, user, 2047, 0);
        for pair in full.chunks_exact_mut(2) {
            pair.copy_from_slice(&[pair[0] - pair[1], pair[0] + pair[1]]);
        }
        rows.push(full);
    }
    for n in [1, 2047] {
        rows.push((0..2 * chips).map(|_| sample(dice, n)).collect());
    }
    // One sample alone: all users have the same sum of squares.
    for _ in 0..4 {
        let mut one = vec![0.0; 2 * chips as usize];
        one[dice.below(2 * chips) as usize] = dice.one_of(&[-2047.0, -1.0, 1.0, 2047.0]);
        rows.push(one);
    }
    rows.extend([0.0, -0.0].map(|zero| vec![zero; 2 * chips as usize]));
    rows.push((0..2 * chips).map(|_| dice.one_of(&[0.0, -0.0])).collect());
    rows
}

/// What is no sample, and what just is.
const EDGES: [f32; 16] = [
    2047.0,
    -2047.0,
    -0.0,
    2047.0001,
    -2047.0001,
    2048.0,
    -2048.0,
    0.5,
    -1.5,
    1e-40,
    -1e-40,
    1e30,
    f32::INFINITY,
    f32::NEG_INFINITY,
    f32::NAN,
    -f32::NAN,
];

/// A row of noise with each of these in a thrown place, in the first, in the last that is read, and just behind.
fn compare_edges(dice: &mut Dice, cell: u32, burst: u32, count: u32) -> u32 {
    let mut compared = 0;
    let floats = 2 * code_of(burst).length as usize;
    let row: Vec<f32> = (0..floats + 8).map(|_| sample(dice, 2047)).collect();
    for edge in EDGES {
        for place in [dice.below(floats as u32) as usize, 0, floats - 1, floats] {
            let mut row = row.clone();
            row[place] = edge;
            compared += heard(cell, burst, count, &row);
        }
    }
    for length in [0, 1, 511, 512, 513, 1023, 1024] {
        compared += heard(cell, burst, count, &row[..length.min(row.len())]);
    }
    compared
}

/// Wrong numbers, each with a row that is long enough, one that is too short, and one with what is no sample.
fn compare_numbers(dice: &mut Dice) -> u32 {
    let mut compared = 0;
    let good: Vec<f32> = (0..1024).map(|_| sample(dice, 2047)).collect();
    let mut bad = good.clone();
    bad[300] = 0.25;
    for cell in [0, 127, 128, u32::MAX] {
        for burst in (0..=4).chain([u32::MAX]) {
            for count in (0..=17).chain([u32::MAX]) {
                for row in [&good[..], &good[..511], &good[..1023], &bad[..], &bad[..1023]] {
                    compared += heard(cell, burst, count, row);
                }
            }
        }
    }
    compared
}

/// The library's sums alone are plain Rust's.
fn compare_sums(cell: u32, row: &[f32]) -> u32 {
    let mut out = [f32::NAN; 32];
    same(inside::correlate(cell, row, 1, &mut out), 1, || format!("sums of cell {cell}"));
    let ours = out.map(f32::to_bits);
    let theirs: Vec<u32> =
        plain::sixteen_sums(cell, row).as_flattened().iter().map(|x| x.to_bits()).collect();
    same(&ours[..], &theirs[..], || format!("bits of the sums of cell {cell}"));
    1
}

/// And it refuses what it must.
fn compare_refused_sums() -> u32 {
    let (row, mut bad, mut out) = ([1.0; 1024], [1.0; 1024], [0.0; 32]);
    bad[1023] = 2048.0;
    let refused = [
        inside::correlate(128, &row, 1, &mut out),
        inside::correlate(0, &row[..1023], 1, &mut out),
        inside::correlate(0, &bad, 1, &mut out),
        inside::correlate(0, &row, 1, &mut out[..31]),
    ];
    same(refused, [u32::MAX; 4], || "sums that are refused".to_string());
    refused.len() as u32
}

/// Every cell, type and count with rows of each kind; what is no sample, and lengths; wrong numbers. How many rows were
/// heard.
pub fn compare() -> u32 {
    let mut dice = Dice::new(18);
    let mut compared = compare_numbers(&mut dice) + compare_refused_sums();
    for cell in 0..128 {
        for (burst, counts) in [(1, &[4, 8, 16][..]), (2, &[3, 6]), (3, &[4, 8, 16])] {
            for row in rows(&mut dice, cell, burst) {
                compared += counts.iter().map(|&n| heard(cell, burst, n, &row)).sum::<u32>();
                if burst == 1 {
                    compared += compare_sums(cell, &row);
                }
            }
            compared += compare_edges(&mut dice, cell, burst, counts[cell as usize % counts.len()]);
        }
    }
    compared
}

/// All cells, with sixteen noisy rows by turns.
fn whole(what: &'static str, burst: u32, count: u32, plain: Hear) -> Line {
    let dice = &mut Dice::new(1);
    let rows: Rc<[Vec<f32>]> =
        (0..16).map(|k| noisy(dice, k, burst, 1 + k % most(burst), 500, 1000)).collect();
    let also = Rc::clone(&rows);
    let inputs: Vec<(u32, usize)> = (0..128).map(|cell| (cell, cell as usize % 16)).collect();
    let library = move |&(cell, row): &(u32, usize)| library::hear(cell, burst, count, &rows[row]);
    Line::new(what, inputs, library, move |&(cell, row)| plain(cell, burst, count, &also[row]))
}

pub fn lines() -> Vec<Line> {
    vec![
        whole("hear, type 1", 1, 16, plain::hear).with_limit(&limits::HEAR),
        whole("hear, type 2", 2, 6, plain::hear).with_limit(&limits::HEAR),
        whole("type 1, four at once (****)", 1, 16, plain::hear_by_fours),
        whole("type 2, four at once (****)", 2, 6, plain::hear_by_fours),
    ]
}
