//! Beside volk, the kernels that software radios correlate with: sixteen conjugate dot products over the 512 chips of a
//! long code. The chips of all sixteen users are prepared beforehand and nothing is tested, in memory as volk wants it.
//!
//! Library and volk take turns in rounds over one row, and the best round of each is kept. Of the library the sums alone
//! are timed inside (crates/correlating), where what is prepared once is timed by a round of no sums and taken off, and the
//! whole call, which prepares and tests anew each time.

use crate::dice::{same, Dice};
use crate::hearing::{inside, noisy, rows};
use crate::{limits, table};
use std::ffi::{c_char, c_void, CStr};
use std::hint::black_box;
use std::slice::{from_raw_parts, from_raw_parts_mut};
use std::time::Instant;

const ROUNDS: usize = 201;
const TIMES: u32 = 100;
const CHIPS: usize = 512;

mod c {
    use super::*;

    type Dot = unsafe extern "C" fn(*mut [f32; 2], *const [f32; 2], *const [f32; 2], u32);

    #[link(name = "volk")]
    extern "C" {
        /// volk puts the kernel that it chooses here at the first call.
        pub static mut volk_32fc_x2_conjugate_dot_prod_32fc: Dot;
        pub fn volk_malloc(size: usize, alignment: usize) -> *mut c_void;
        pub fn volk_free(memory: *mut c_void);
        pub fn volk_get_alignment() -> usize;
        pub fn volk_get_machine() -> *const c_char;
        pub fn volk_version() -> *const c_char;
    }
}

/// Pairs in memory of volk's.
struct Pairs {
    first: *mut [f32; 2],
    count: usize,
}

impl Pairs {
    fn new(count: usize) -> Pairs {
        // SAFETY: plain numbers; what comes back is that many bytes, or null.
        let first = unsafe { c::volk_malloc(8 * count, c::volk_get_alignment()) } as *mut [f32; 2];
        assert!(!first.is_null(), "volk_malloc gives no memory");
        for k in 0..count {
            // SAFETY: within the bytes above.
            unsafe { first.add(k).write([0.0; 2]) };
        }
        Pairs { first, count }
    }

    fn all(&self) -> &[[f32; 2]] {
        // SAFETY: so many are there and are written, and they are ours.
        unsafe { from_raw_parts(self.first, self.count) }
    }

    fn all_mut(&mut self) -> &mut [[f32; 2]] {
        // SAFETY: as above.
        unsafe { from_raw_parts_mut(self.first, self.count) }
    }
}

impl Drop for Pairs {
    fn drop(&mut self) {
        // SAFETY: it came from volk_malloc, and nobody has it any more.
        unsafe { c::volk_free(self.first as *mut c_void) }
    }
}

/// The chips of users 1 to 16 of a cell, one user after the other.
fn fill_chips(cell: u32, out: &mut Pairs) {
    for (user, chips) in (1..).zip(out.all_mut().chunks_exact_mut(CHIPS)) {
        library::pairs(cell, 1, 16, user, 1, chips.as_flattened_mut());
    }
}

/// The sums of all sixteen users.
fn sums(chips: &Pairs, row: &Pairs, out: &mut [[f32; 2]; 16]) {
    for (chips, sum) in chips.all().chunks_exact(CHIPS).zip(out) {
        // SAFETY: both have that many pairs, and there is place for one.
        unsafe {
            c::volk_32fc_x2_conjugate_dot_prod_32fc(
                sum,
                row.all().as_ptr(),
                chips.as_ptr(),
                CHIPS as u32,
            )
        }
    }
}

/// Every cell with rows of each kind: volk's sums are the library's, as numbers. How many rows.
fn compare() -> u32 {
    let mut dice = Dice::new(24);
    let mut compared = 0;
    let (mut chips, mut row) = (Pairs::new(16 * CHIPS), Pairs::new(CHIPS));
    for cell in 0..128 {
        fill_chips(cell, &mut chips);
        for samples in rows(&mut dice, cell, 1) {
            row.all_mut().as_flattened_mut().copy_from_slice(&samples);
            let (mut ours, mut theirs) = ([[0.0; 2]; 16], [[0.0; 2]; 16]);
            inside::correlate(cell, &samples, 1, ours.as_flattened_mut());
            sums(&chips, &row, &mut theirs);
            same(ours, theirs, || format!("sums of cell {cell} by volk"));
            compared += 1;
        }
    }
    compared
}

/// Nanoseconds, library and volk: the sums alone, and the whole call.
fn measure() -> [[f64; 2]; 2] {
    let cell = 64;
    let (mut chips, mut row) = (Pairs::new(16 * CHIPS), Pairs::new(CHIPS));
    fill_chips(cell, &mut chips);
    let samples = noisy(&mut Dice::new(1), cell, 1, 5, 500, 1000);
    row.all_mut().as_flattened_mut().copy_from_slice(&samples);
    let floats = row.all().as_flattened();
    let correlate = |times: u32| {
        let mut out = [0.0; 32];
        inside::correlate(black_box(cell), floats, black_box(times), black_box(&mut out));
    };
    let hear = || {
        for _ in 0..TIMES {
            black_box(library::hear(black_box(cell), 1, 16, floats));
        }
    };
    let volk = || {
        let mut out = [[0.0; 2]; 16];
        for _ in 0..TIMES {
            sums(&chips, &row, black_box(&mut out));
        }
    };
    let sides: [&dyn Fn(); 4] = [&|| correlate(0), &|| correlate(TIMES), &hear, &volk];
    let mut best = [f64::INFINITY; 4];
    for round in 0..ROUNDS {
        for k in 0..4 {
            let side = (round + k) % 4;
            let start = Instant::now();
            sides[side]();
            best[side] = best[side].min(start.elapsed().as_nanos() as f64);
        }
    }
    let [prepared, all, whole, volk] = best.map(|ns| ns / TIMES as f64);
    [[all - prepared, volk], [whole, volk]]
}

/// Prints the table; whether its limits hold.
pub fn run() -> bool {
    println!("library and volk give equal sums: {} rows, of sixteen users each", compare());
    // SAFETY: texts of volk's own, which stay.
    let [version, machine] =
        unsafe { [CStr::from_ptr(c::volk_version()), CStr::from_ptr(c::volk_get_machine())] };
    println!(
        "ns for sixteen users of a long code, best of {ROUNDS} rounds of {TIMES}; volk {} ({}), sixteen dot products over prepared chips\n",
        version.to_string_lossy(),
        machine.to_string_lossy()
    );
    let [alone, whole] = measure();
    table::print_head("beside volk", ["library ns", "volk ns"]);
    table::print_line("the sums alone", alone);
    table::print_line("hear, with all its tests", whole);
    let ratio = |[library, volk]: [f64; 2]| library / volk;
    println!();
    let held = [
        limits::SUMS_BESIDE_VOLK.holds([ratio(alone)].into_iter()),
        limits::HEAR_BESIDE_VOLK.holds([ratio(whole)].into_iter()),
    ];
    held == [true; 2]
}
