//! Whether two midambles that a count permits are powers of j of each other, and how near the others come to it: every
//! cell, type, count and pair of users, by the chips that the library fills. What is found must stand in docs/APART.md.

use crate::fail;
use std::collections::{HashMap, HashSet};

const PAGE: &str = include_str!("../docs/APART.md");
const MARKS: [&str; 2] = [
    "<!-- listed by compare/run apart: begin -->\n",
    "<!-- listed by compare/run apart: end -->\n",
];

const COUNTS: [(u32, u32); 8] = [(1, 16), (1, 8), (1, 4), (2, 6), (2, 3), (3, 16), (3, 8), (3, 4)];

/// Two users of a cell, the lower one first, and at how many chips the difference of their powers of j, the first less
/// the second modulo 4, is 0, 1, 2 and 3.
#[derive(Clone, Copy)]
struct Pair {
    cell: u32,
    users: [u32; 2],
    chips: [i64; 4],
}

impl Pair {
    fn length(&self) -> i64 {
        self.chips.iter().sum()
    }

    /// The square of the size of their sum of products, one conjugated.
    fn squares(&self) -> i64 {
        let [a, b, c, d] = self.chips;
        (a - c).pow(2) + (b - d).pow(2)
    }

    /// Which power of j the first is times the second, if any.
    fn power(&self) -> Option<usize> {
        self.chips.iter().position(|&chips| chips == self.length())
    }
}

/// What a type and count have.
struct Found {
    burst: u32,
    count: u32,
    pairs: usize,
    /// Those that are powers of j of each other, with the power.
    powers: Vec<(Pair, usize)>,
    /// The first of those that come nearest to it, if there are others.
    nearest: Option<Pair>,
}

impl Found {
    fn add(&mut self, pair: Pair) {
        self.pairs += 1;
        if let Some(power) = pair.power() {
            self.powers.push((pair, power));
        } else if self.nearest.map_or(true, |nearest| nearest.squares() < pair.squares()) {
            self.nearest = Some(pair);
        }
    }
}

/// The midambles of all users that a count permits.
fn midambles(cell: u32, burst: u32, count: u32) -> Vec<(u32, Vec<u8>)> {
    let filled = |user: u32| {
        let mut chips = vec![0; 512];
        let answer = library::midamble(cell, burst, count, user, &mut chips);
        chips.truncate(answer.value as usize);
        (answer.refusal == 0).then_some((user, chips))
    };
    (1..=16).filter_map(filled).collect()
}

fn differences(first: &[u8], second: &[u8]) -> [i64; 4] {
    let mut chips = [0; 4];
    for (p, q) in first.iter().zip(second) {
        chips[(4 + p - q) as usize % 4] += 1;
    }
    chips
}

/// Which midambles and which pairs of them there are, whatever type and count they are of.
#[derive(Default)]
struct Seen {
    midambles: HashMap<Vec<u8>, usize>,
    pairs: HashSet<[usize; 2]>,
}

impl Seen {
    fn number(&mut self, chips: &[u8]) -> usize {
        let next = self.midambles.len();
        *self.midambles.entry(chips.to_vec()).or_insert(next)
    }
}

/// All pairs of a type and count.
fn tested(burst: u32, count: u32, seen: &mut Seen) -> Found {
    let mut found = Found { burst, count, pairs: 0, powers: Vec::new(), nearest: None };
    for cell in 0..128 {
        let users = midambles(cell, burst, count);
        let numbers: Vec<usize> = users.iter().map(|(_, chips)| seen.number(chips)).collect();
        for (k, (low, first)) in users.iter().enumerate() {
            for (m, (high, second)) in users.iter().enumerate().skip(k + 1) {
                let chips = differences(first, second);
                found.add(Pair { cell, users: [*low, *high], chips });
                seen.pairs.insert([numbers[k], numbers[m]]);
            }
        }
    }
    found
}

/// `41,728`.
fn with_commas(number: usize) -> String {
    if number < 1000 {
        return number.to_string();
    }
    format!("{},{:03}", with_commas(number / 1000), number % 1000)
}

/// The nearest pair, as cells of a row.
fn nearest(pair: &Pair) -> String {
    let (Pair { cell, users: [low, high], chips: [a, b, c, d] }, n) = (pair, pair.length());
    let part = pair.squares() as f64 / (n * n) as f64;
    format!(
        "{cell} | {low}, {high} | {a}, {b}, {c}, {d} | {} of {} | {:.1} % of {n} | {:.1} dB",
        with_commas(pair.squares() as usize),
        with_commas((n * n) as usize),
        100.0 * part.sqrt(),
        10.0 * part.log10()
    )
}

fn row(found: &Found) -> String {
    let Found { burst, count, pairs, powers, nearest: pair } = found;
    let pair = pair.as_ref().map_or("none | | | | |".to_string(), nearest);
    format!("| {burst} | {count} | {} | {} | {pair} |\n", with_commas(*pairs), powers.len())
}

/// What stands in the page.
fn listed(all: &[Found], seen: &Seen) -> String {
    let mut text = String::from("| type | count | pairs | powers of j of each other | nearest: cell | users | a, b, c, d | (a - c)² + (b - d)² | its root | in dB |\n|---|---|---|---|---|---|---|---|---|---|\n");
    text.extend(all.iter().map(row));
    text += &format!(
        "\nPairs tested: {}, of which {} are different, of {} different midambles.\n\n",
        with_commas(all.iter().map(|found| found.pairs).sum()),
        with_commas(seen.pairs.len()),
        with_commas(seen.midambles.len())
    );
    if all.iter().all(|found| found.powers.is_empty()) {
        return text + "Pairs that are powers of j of each other: there are none.\n";
    }
    text += "Pairs that are powers of j of each other:\n\n| type | count | cell | users | power |\n|---|---|---|---|---|\n";
    for found in all {
        for (Pair { cell, users: [low, high], .. }, power) in &found.powers {
            text += &format!(
                "| {} | {} | {cell} | {low}, {high} | {power} |\n",
                found.burst, found.count
            );
        }
    }
    text
}

pub fn run() {
    let mut seen = Seen::default();
    let all = COUNTS.map(|(burst, count)| tested(burst, count, &mut seen));
    let found = listed(&all, &seen);
    let there = PAGE.split_once(MARKS[0]).and_then(|(_, behind)| behind.split_once(MARKS[1]));
    match there {
        None => fail("docs/APART.md has not the two marks \"listed by compare/run apart\""),
        Some((there, _)) if there != found => fail(&format!(
            "docs/APART.md does not say what is found. Between its marks should stand:\n{found}"
        )),
        Some(_) => println!(
            "compare: {} pairs of midambles, powers of j of each other: {}; docs/APART.md says so",
            all.iter().map(|found| found.pairs).sum::<usize>(),
            all.iter().map(|found| found.powers.len()).sum::<usize>()
        ),
    }
}
