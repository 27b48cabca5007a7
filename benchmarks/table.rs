//! A table of calls, each timed by the library and by plain Rust, or by the library in two ways, in turns; and its
//! printing.

use crate::copies::TableCopy;
use crate::limits::Limit;
use std::hint::black_box;
use std::rc::Rc;
use std::time::Instant;

/// Times a round, in nanoseconds a call; the best one so far.
struct Side {
    round: Box<dyn FnMut() -> f64>,
    best: f64,
}

/// One line of the table: the same work by the library and by plain Rust, or whatever else stands in its column.
pub struct Line {
    what: String,
    /// Calls in a round.
    calls: usize,
    /// The limit that its ratio is held to, if any.
    limit: Option<&'static Limit>,
    /// The copy that is taken off the times, if any, and how many of it are taken off each side's.
    copy: Option<&'static TableCopy>,
    copies: [u32; 2],
    /// What one of them takes; 0 until `settle` says it.
    copy_ns: f64,
    /// The library, plain Rust, that copy with what it is made with, and that alone.
    sides: Vec<Side>,
}

/// Nanoseconds a call, over all inputs once.
fn timed<I, A>(inputs: &[I], call: &mut impl FnMut(&I) -> A) -> f64 {
    let start = Instant::now();
    for x in black_box(inputs) {
        let answer = call(x);
        black_box(&answer);
    }
    start.elapsed().as_nanos() as f64 / inputs.len() as f64
}

/// A side that calls once for each input.
fn side<I: 'static, A>(inputs: Rc<[I]>, mut call: impl FnMut(&I) -> A + 'static) -> Side {
    Side { round: Box::new(move || timed(&inputs, &mut call)), best: f64::INFINITY }
}

impl Line {
    pub fn new<I: 'static, A: 'static>(
        what: impl Into<String>,
        inputs: Vec<I>,
        library: impl FnMut(&I) -> A + 'static,
        plain: impl FnMut(&I) -> A + 'static,
    ) -> Line {
        let inputs: Rc<[I]> = inputs.into();
        Line {
            what: what.into(),
            calls: inputs.len(),
            limit: None,
            copy: None,
            copies: [0, 0],
            copy_ns: 0.0,
            sides: vec![side(Rc::clone(&inputs), library), side(inputs, plain)],
        }
    }

    pub fn with_limit(self, limit: &'static Limit) -> Line {
        Line { limit: Some(limit), ..self }
    }

    /// Takes a copy off the library's time: a copy for each call, in the same rounds.
    pub fn less(self, copy: &'static TableCopy) -> Line {
        self.less_copies(copy, [1, 0])
    }

    /// Takes so many copies for each call off each side's time.
    pub fn less_copies(mut self, copy: &'static TableCopy, copies: [u32; 2]) -> Line {
        for call in [copy.make, copy.besides] {
            self.sides.push(side(vec![(); self.calls].into(), move |_| call()));
        }
        Line { copy: Some(copy), copies, ..self }
    }

    /// One round of each side; who goes first changes from round to round.
    pub fn round(&mut self, round: usize) {
        let sides = self.sides.len();
        for k in 0..sides {
            let side = &mut self.sides[(round + k) % sides];
            side.best = side.best.min((side.round)());
        }
    }

    /// The best round of the library and of plain Rust, less their copies.
    fn best(&self) -> [f64; 2] {
        [0, 1].map(|k| self.sides[k].best - self.copies[k] as f64 * self.copy_ns)
    }

    /// Library to plain Rust, where the line is held to that limit.
    pub fn ratio_of(&self, limit: &Limit) -> Option<f64> {
        let held = self.limit.is_some_and(|mine| mine.what == limit.what);
        let [library, plain] = self.best();
        held.then_some(library / plain)
    }

    /// The best round of that copy, where the line takes it off.
    pub fn best_of(&self, copy: &TableCopy) -> Option<f64> {
        let taken = self.copy.is_some_and(|mine| mine.what == copy.what);
        taken.then(|| self.sides[2].best - self.sides[3].best)
    }

    fn print(&self) {
        print_line(&self.what, self.best());
    }
}

/// The best of a copy over all lines that take it off.
pub fn best_copy(lines: &[Line], copy: &TableCopy) -> f64 {
    lines.iter().filter_map(|line| line.best_of(copy)).fold(f64::INFINITY, f64::min)
}

/// After the rounds: what a copy takes is one figure for all lines that take it off.
pub fn settle(lines: &mut [Line]) {
    for k in 0..lines.len() {
        if let Some(copy) = lines[k].copy {
            lines[k].copy_ns = best_copy(lines, copy);
        }
    }
}

/// The heads of both columns, where plain Rust stands in the second.
pub const SIDES: [&str; 2] = ["library ns", "plain Rust ns"];

pub fn print_head(what: &str, [library, plain]: [&str; 2]) {
    println!("| {what:<28} | {library:>10} | {plain:>13} | ratio |");
    println!("|:{0:-<28}-|-----------:|--------------:|------:|", "");
}

pub fn print(what: &str, sides: [&str; 2], lines: &[Line]) {
    print_head(what, sides);
    for line in lines {
        line.print();
    }
}

pub fn print_line(what: &str, [library, plain]: [f64; 2]) {
    println!("| {what:<28} | {library:>10.1} | {plain:>13.1} | {:>5.2} |", library / plain);
}
