//! Numbers that look thrown, the same in every run.

use std::process::exit;

pub struct Dice(u64);

impl Dice {
    pub fn new(seed: u64) -> Dice {
        Dice(seed.wrapping_mul(0x9E37_79B9_7F4A_7C15) | 1)
    }

    pub fn below(&mut self, n: u32) -> u32 {
        self.0 ^= self.0 << 13;
        self.0 ^= self.0 >> 7;
        self.0 ^= self.0 << 17;
        ((self.0 >> 32) * n as u64 >> 32) as u32
    }

    pub fn one_of<T: Copy>(&mut self, row: &[T]) -> T {
        row[self.below(row.len() as u32) as usize]
    }
}

/// Ends the run where library and plain Rust differ.
pub fn same<T: PartialEq + std::fmt::Debug>(library: T, plain: T, what: impl Fn() -> String) {
    if library != plain {
        eprintln!("differ: {}: library {library:?}, plain Rust {plain:?}", what());
        exit(1);
    }
}
