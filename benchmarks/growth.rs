//! How a booking's cost grows with the bookings in the book: inside the library (crates/growth), without the way over
//! C, beside plain Rust.
//!
//! Both book one code more, again and again, into a book with 0, 60, 120 and 239 bookings, in rounds in which library
//! and plain Rust take turns; the best round of each is kept. The making of the book is timed by a round of no booking
//! and taken off.

use crate::dice::same;
use crate::table;
use std::hint::black_box;
use std::time::Instant;

const ROUNDS: usize = 61;
const TIMES: u32 = 400;
const BOOKINGS: [u32; 4] = [0, 60, 120, 239];

/// Books inside the library (crates/growth), without the way over C.
mod inside {
    mod c {
        extern "C" {
            pub fn growth_book(bookings: u32, times: u32) -> u32;
            pub fn growth_mixed(seed: u32, calls: u32) -> u32;
        }
    }

    pub fn book(bookings: u32, times: u32) -> u32 {
        // SAFETY: plain numbers, and the call asks nothing of them.
        unsafe { c::growth_book(bookings, times) }
    }

    pub fn mixed(seed: u32, calls: u32) -> u32 {
        // SAFETY: plain numbers, and the call asks nothing of them.
        unsafe { c::growth_mixed(seed, calls) }
    }
}

/// The same work as crates/growth, over plain/book.rs.
mod plain {
    use crate::plain::book::{book_code, empty_book, open_seat, Book, Direction, Request};

    fn seat_of(j: u32) -> u32 {
        if j < 160 {
            j % 16
        } else {
            j % 8
        }
    }

    fn request_of(j: u32, user: u32) -> Request {
        let p = if j < 160 { j / 16 } else { (j - 160) / 8 + 10 };
        Request {
            timeslot: 1 + p % 14 * 5 % 14,
            direction: Direction::Up,
            burst: 1,
            factor: 16,
            index: 1 + p / 14 % 16,
            user,
            tfci: 0,
            tpc: 0,
        }
    }

    fn booked(n: u32) -> Book {
        let mut b = empty_book();
        for i in 0..16 {
            b = open_seat(b, i, i, 1, 0, 16, 6).book;
        }
        for j in 0..n {
            b = book_code(b, seat_of(j), request_of(j, 1)).book;
        }
        b
    }

    #[inline(never)]
    pub fn book(bookings: u32, times: u32) -> u32 {
        let mut b = booked(bookings);
        let seat = seat_of(bookings);
        let i = seat as usize;
        let s = b.seats[i];
        let mut sum = 0u32;
        for t in 0..times {
            let a = book_code(b, seat, request_of(bookings, 1 + t % 16));
            b = a.book;
            sum = sum.wrapping_add(a.refusal).wrapping_add(b.seats[i].count as u32);
            b.seats[i] = s;
        }
        sum
    }

    fn next(x: u32) -> u32 {
        (x % 65536 * 4093 + 12345) % 65536
    }

    fn thrown(x: u32) -> Request {
        let a = next(x);
        let b = next(a);
        let c = next(b);
        let f = c / 16;
        Request {
            timeslot: a / 64 % 16,
            direction: if b / 16 % 3 == 0 { Direction::Down } else { Direction::Up },
            burst: 1 + b / 256 % 17 / 14 + b / 256 % 17 / 16,
            factor: if f % 8 == 0 {
                1
            } else if f % 8 == 1 {
                8
            } else if f % 64 == 2 {
                3
            } else {
                16
            },
            index: 1 + c / 256 % 16,
            user: 1 + a / 1024 % 17,
            tfci: b / 2048 % 20 / 18 * 4,
            tpc: c / 4096 % 14 / 12,
        }
    }

    pub fn mixed(seed: u32, calls: u32) -> u32 {
        let mut b = empty_book();
        for i in 0..16 {
            let t = 3 - i / 4 % 4;
            let (long, short) = (t * 4 + t / 3 * 4, (i % 4 * 7 + 6) % 10);
            b = open_seat(b, i, i, 1 + i % 2, i % 8, long, short).book;
        }
        let mut sum = seed % 65536;
        let mut x = seed % 65536;
        for _ in 0..calls {
            x = next(x);
            let a = book_code(b, x / 16 % 17, thrown(x));
            b = a.book;
            sum = next(sum ^ a.refusal);
        }
        for s in &b.seats {
            sum = next(sum ^ s.count as u32);
            for y in &s.row {
                sum = next(sum ^ y.timeslot as u32);
                sum = next(sum ^ y.index as u32);
                sum = next(sum ^ y.user as u32);
            }
            for y in &s.slots {
                sum = next(sum ^ y.pattern() as u32);
                sum = next(sum ^ y.direction());
                sum = next(sum ^ y.count as u32);
                sum = next(sum ^ y.second as u32);
            }
        }
        sum
    }
}

/// Each number of bookings, and rows of thrown requests with the books that they leave; how many bookings were asked
/// for.
pub fn compare() -> u32 {
    let mut compared = 0;
    for bookings in 0..=300 {
        same(inside::book(bookings, 3), plain::book(bookings, 3), || {
            format!("{bookings} bookings")
        });
        compared += bookings + 3;
    }
    for seed in 0..200 {
        let calls = 5 * seed;
        same(inside::mixed(seed, calls), plain::mixed(seed, calls), || {
            format!("thrown requests, seed {seed}")
        });
        compared += calls;
    }
    compared
}

/// Nanoseconds of the making of a book and of so many bookings more.
fn timed(f: fn(u32, u32) -> u32, bookings: u32, times: u32) -> f64 {
    let start = Instant::now();
    black_box(f(black_box(bookings), black_box(times)));
    start.elapsed().as_nanos() as f64
}

/// For each number of bookings: the nanoseconds of a booking more, library and plain Rust.
pub fn measure() -> [[f64; 2]; 4] {
    let sides = [inside::book, plain::book];
    // The best round of the making alone, and with the bookings more.
    let mut best = [[[f64::INFINITY; 2]; 2]; 4];
    for round in 0..ROUNDS {
        for (bookings, best) in BOOKINGS.iter().zip(&mut best) {
            for side in [round % 2, 1 - round % 2] {
                for (best, times) in best[side].iter_mut().zip([0, TIMES]) {
                    *best = best.min(timed(sides[side], *bookings, times));
                }
            }
        }
    }
    best.map(|sides| sides.map(|[making, all]| (all - making) / TIMES as f64))
}

/// Prints the table; its ratios.
pub fn print(ns: [[f64; 2]; 4]) -> [f64; 4] {
    println!("ns of a booking inside the library, by the bookings in the book; best of {ROUNDS} rounds of {TIMES}\n");
    table::print_head("bookings in the book", table::SIDES);
    for (bookings, ns) in BOOKINGS.iter().zip(ns) {
        table::print_line(&bookings.to_string(), ns);
    }
    println!(
        "\nfrom 0 to 239 bookings: library {:.1} times, plain Rust {:.1} times",
        ns[3][0] / ns[0][0],
        ns[3][1] / ns[0][1]
    );
    ns.map(|[library, plain]| library / plain)
}
