//! What a run asks of the library, in times of plain Rust, of another call of its own or of volk; it fails where more is
//! taken.

pub struct Limit {
    pub what: &'static str,
    /// What its time is counted in times of.
    of: &'static str,
    times: f64,
}

const PLAIN: &str = "plain Rust";

pub const MIDAMBLE: Limit = Limit {
    what: "a whole midamble (beside a loop that reads the digit for every chip)",
    of: PLAIN,
    times: 1.0 / 3.0,
};
pub const MIDAMBLE_BY_DIGITS: Limit = Limit {
    what: "a whole midamble (less the copy of the row table, beside plain Rust that reads each digit once)",
    of: PLAIN,
    times: 1.5,
};
pub const BLOCK_BY_DIGITS: Limit = Limit {
    what: "a block of 64 chips or more (less the library's own copy of the row table, beside plain Rust that reads each digit once)",
    of: PLAIN,
    times: 1.5,
};
pub const MIDAMBLE_IN_BLOCKS: Limit = Limit {
    what: "a whole midamble in blocks of 64 (less the library's own copy of the row table for each block)",
    of: "the library's own in one call, with its copy",
    times: 1.5,
};
pub const PAIRS: Limit = Limit {
    what: "a row of pairs (beside a loop that reads the digit for every chip)",
    of: PLAIN,
    times: 1.2,
};
pub const PAIRS_BY_DIGITS: Limit = Limit {
    what: "a row of pairs (less the copy of the row table, beside plain Rust that reads each digit once)",
    of: PLAIN,
    times: 1.5,
};
pub const HEAR: Limit = Limit { what: "hearing a row", of: PLAIN, times: 1.5 };
pub const PAGE: Limit = Limit { what: "a page", of: PLAIN, times: 1.5 };
pub const EMPTY_BOOK: Limit = Limit { what: "an empty book over C", of: PLAIN, times: 1.5 };
pub const SUMMARY: Limit = Limit { what: "asking a summary over C", of: PLAIN, times: 1.5 };
pub const BOOKING: Limit = Limit { what: "a booking inside the library", of: PLAIN, times: 1.5 };
#[cfg(volk)]
const VOLK: &str = "volk's sixteen dot products";
#[cfg(volk)]
pub const SUMS_BESIDE_VOLK: Limit = Limit {
    what: "making the sums of sixteen users of a long code (less what is prepared once)",
    of: VOLK,
    times: 1.0,
};
#[cfg(volk)]
pub const HEAR_BESIDE_VOLK: Limit = Limit {
    what: "hearing a row of sixteen users of a long code (with all its tests)",
    of: VOLK,
    times: 1.5,
};

impl Limit {
    /// Says whether the limit holds, for the largest of these ratios.
    pub fn holds(&self, ratios: impl Iterator<Item = f64>) -> bool {
        let Limit { what, of, times } = self;
        let worst = ratios.fold(0.0, f64::max);
        let fine = worst <= *times;
        let word = if fine { "ok" } else { "TOO SLOW" };
        println!("{word}: {what} takes up to {worst:.2} times {of}; at most {times:.2} is asked");
        fine
    }
}
