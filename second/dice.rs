//! Numbers that look random and are the same for the same seed, everywhere.

/// The generator splitmix64.
pub struct Dice {
    state: u64,
}

impl Dice {
    pub fn new(seed: u64) -> Dice {
        Dice { state: seed }
    }

    /// The next 64 bits.
    fn next(&mut self) -> u64 {
        self.state = self.state.wrapping_add(0x9E37_79B9_7F4A_7C15);
        let mut bits = self.state;
        bits = (bits ^ (bits >> 30)).wrapping_mul(0xBF58_476D_1CE4_E5B9);
        bits = (bits ^ (bits >> 27)).wrapping_mul(0x94D0_49BB_1331_11EB);
        bits ^ (bits >> 31)
    }

    /// Any number of 32 bits.
    pub fn number(&mut self) -> u32 {
        (self.next() >> 32) as u32
    }

    /// Any byte.
    pub fn byte(&mut self) -> u8 {
        (self.next() >> 56) as u8
    }

    /// A number from 0 on, below `end`.
    pub fn below(&mut self, end: u32) -> u32 {
        self.number() % end
    }

    /// A place in a row of that length.
    pub fn place(&mut self, length: usize) -> usize {
        self.below(length as u32) as usize
    }

    /// A number of `first` to `last`.
    pub fn between(&mut self, first: u32, last: u32) -> u32 {
        first + self.below(last - first + 1)
    }

    /// True once in `n` times.
    pub fn one_in(&mut self, n: u32) -> bool {
        self.below(n) == 0
    }

    /// True in so many of a hundred times.
    pub fn percent(&mut self, percent: u32) -> bool {
        self.below(100) < percent
    }

    /// One of these.
    pub fn pick<T: Copy>(&mut self, from: &[T]) -> T {
        from[self.place(from.len())]
    }

    /// One of these, each as often as its weight says.
    pub fn pick_by_weight<T: Copy>(&mut self, from: &[(u32, T)]) -> T {
        let mut drawn = self.below(from.iter().map(|(weight, _)| weight).sum());
        for (weight, item) in from {
            if drawn < *weight {
                return *item;
            }
            drawn -= weight;
        }
        unreachable!("what is drawn lies below the sum of the weights")
    }

    /// That many digits 0 and 1.
    pub fn binary_digits(&mut self, length: u32) -> String {
        (0..length).map(|_| if self.one_in(2) { '1' } else { '0' }).collect()
    }
}
