//! The library over C beside the second, independent program: reply, book and every lent byte. Ends with exit 1 at the
//! first difference.
//!
//! `compare/run` builds and runs it: `every` puts every question of docs/COMPARISON.md, `random` seeded random lessons,
//! and `apart` holds the library's midambles to docs/APART.md; without a word it does all three.

mod air;
mod apart;
mod beside;
mod bookings;
mod damage;
mod every;
mod random;

use beside::Tally;
use second::refusals::condition;
use second::rows::{self, Rows};
use std::process::exit;

fn fail(what: &str) -> ! {
    eprintln!("compare: {what}");
    exit(1);
}

/// The words of each refusal are those of document 01 and docs/LESSONS.md, and other numbers have none.
fn words() {
    for number in (0..=30).chain([u32::MAX]) {
        let mut out = [0; 400];
        let answer = library::refusal_text(number, &mut out);
        let said = String::from_utf8_lossy(&out[..answer.value as usize]);
        let wanted = if (1..=24).contains(&number) { condition(number) } else { "" };
        if said != wanted {
            fail(&format!("the words of refusal {number} are {said:?}"));
        }
    }
}

/// The refusals of these that never came.
fn missing(tally: &Tally) -> Vec<usize> {
    (0..=24).filter(|number| tally.by_refusal[*number] == 0).collect()
}

fn every(rows: &Rows) {
    let all = every::run(rows);
    if !missing(&all).is_empty() {
        fail(&format!("every question, and refusals never met: {:?}", missing(&all)));
    }
    println!("compare: every question over C as the second program answers it: {}", all.words());
}

fn random(rows: &Rows) {
    let (all, damaged) = random::run(rows);
    if all.calls < 200_000 || !missing(&all).is_empty() {
        fail(&format!("{} calls only, or refusals never met: {:?}", all.calls, missing(&all)));
    }
    println!("compare: random lessons likewise, {damaged} calls on damaged books: {}", all.words());
}

fn main() {
    let rows = rows::kept().unwrap_or_else(|error| fail(&error));
    words();
    let asked: Vec<String> = std::env::args().skip(1).collect();
    match asked.iter().map(String::as_str).collect::<Vec<_>>()[..] {
        [] => {
            every(&rows);
            random(&rows);
            apart::run();
        }
        ["every"] => every(&rows),
        ["random"] => random(&rows),
        ["apart"] => apart::run(),
        _ => fail("usage: compare/run [every | random | apart]"),
    }
}
