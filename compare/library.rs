//! The library over C: the calls of include/mqarbset.h, each as a safe function. A crate of its own: compare/run and
//! benchmarks/run build it and link it with target/staticlib/libmqarbset.a.

mod answers;

pub use answers::*;

mod c {
    use super::*;

    extern "C" {
        pub fn mq_midamble_chip(
            cell: u32,
            burst: u32,
            count: u32,
            user: u32,
            chip: u32,
        ) -> MqAnswer;
        pub fn mq_midamble(
            cell: u32,
            burst: u32,
            count: u32,
            user: u32,
            out: *mut u8,
            length: usize,
        ) -> MqAnswer;
        pub fn mq_block_start(cell: u32, burst: u32, count: u32, user: u32) -> MqBlockStart;
        pub fn mq_block_value(place: MqBlockPlace, out: *mut u8, length: usize) -> MqBlock;
        pub fn mq_pair(
            cell: u32,
            burst: u32,
            count: u32,
            user: u32,
            chip: u32,
            level: u32,
        ) -> MqPair;
        pub fn mq_pairs(
            cell: u32,
            burst: u32,
            count: u32,
            user: u32,
            level: u32,
            out: *mut f32,
            length: usize,
        ) -> MqAnswer;
        pub fn mq_hear(cell: u32, burst: u32, count: u32, row: *const f32, length: usize)
            -> MqHear;
        pub fn mq_parts(burst: u32, direction: u32, factor: u32, tfci: u32, tpc: u32) -> MqParts;
        pub fn mq_at(
            burst: u32,
            direction: u32,
            factor: u32,
            tfci: u32,
            tpc: u32,
            chip: u32,
        ) -> MqPlace;
        pub fn mq_beacon(sync: u32, k: u32) -> MqBeacons;
        pub fn mq_indicator(burst: u32, length: u32, frames: u32, number: u32) -> MqIndicator;
        pub fn mq_owner(burst: u32, length: u32, bit: u32) -> MqOwner;
        pub fn mq_page(
            burst: u32,
            length: u32,
            settings: *const u8,
            count: usize,
            out: *mut u8,
            size: usize,
        ) -> MqAnswer;
        pub fn mq_read_page(
            burst: u32,
            length: u32,
            bits: *const u8,
            count: usize,
            out: *mut u8,
            size: usize,
        ) -> MqAnswer;
        pub fn mq_refusal_text(number: u32, out: *mut u8, size: usize) -> MqAnswer;
        pub fn mq_empty_book() -> MqBook;
        pub fn mq_open_value(
            b: MqBook,
            seat: u32,
            cell: u32,
            sync: u32,
            k: u32,
            long: u32,
            short: u32,
        ) -> MqBookAnswer;
        pub fn mq_book_value(
            b: MqBook,
            seat: u32,
            timeslot: u32,
            direction: u32,
            burst: u32,
            factor: u32,
            index: u32,
            user: u32,
            tfci: u32,
            tpc: u32,
        ) -> MqBookAnswer;
        pub fn mq_cancel_value(
            b: MqBook,
            seat: u32,
            timeslot: u32,
            factor: u32,
            index: u32,
        ) -> MqBookAnswer;
        pub fn mq_close_value(b: MqBook, seat: u32) -> MqBookAnswer;
        pub fn mq_list_bytes(b: MqBook, seat: u32, out: *mut u8, length: usize) -> MqAnswer;
        pub fn mq_summary_value(b: MqBook, seat: u32, timeslot: u32) -> MqSummary;
    }
}

// SAFETY, of all calls below: plain numbers and plain bytes by value, and pointers with the lengths of slices that are
// ours alone for the call. The calls ask nothing of any of them.
//
// They are inlined into the crates that use them, so that a benchmark measures the library's call and no other.

#[inline]
pub fn chip(cell: u32, burst: u32, count: u32, user: u32, chip: u32) -> MqAnswer {
    unsafe { c::mq_midamble_chip(cell, burst, count, user, chip) }
}

#[inline]
pub fn midamble(cell: u32, burst: u32, count: u32, user: u32, out: &mut [u8]) -> MqAnswer {
    unsafe { c::mq_midamble(cell, burst, count, user, out.as_mut_ptr(), out.len()) }
}

#[inline]
pub fn block_start(cell: u32, burst: u32, count: u32, user: u32) -> MqBlockStart {
    unsafe { c::mq_block_start(cell, burst, count, user) }
}

#[inline]
pub fn block(place: MqBlockPlace, out: &mut [u8]) -> MqBlock {
    unsafe { c::mq_block_value(place, out.as_mut_ptr(), out.len()) }
}

#[inline]
pub fn pair(cell: u32, burst: u32, count: u32, user: u32, chip: u32, level: u32) -> MqPair {
    unsafe { c::mq_pair(cell, burst, count, user, chip, level) }
}

#[inline]
pub fn pairs(
    cell: u32,
    burst: u32,
    count: u32,
    user: u32,
    level: u32,
    out: &mut [f32],
) -> MqAnswer {
    unsafe { c::mq_pairs(cell, burst, count, user, level, out.as_mut_ptr(), out.len()) }
}

#[inline]
pub fn hear(cell: u32, burst: u32, count: u32, row: &[f32]) -> MqHear {
    unsafe { c::mq_hear(cell, burst, count, row.as_ptr(), row.len()) }
}

#[inline]
pub fn parts(burst: u32, direction: u32, factor: u32, tfci: u32, tpc: u32) -> MqParts {
    unsafe { c::mq_parts(burst, direction, factor, tfci, tpc) }
}

#[inline]
pub fn at(burst: u32, direction: u32, factor: u32, tfci: u32, tpc: u32, chip: u32) -> MqPlace {
    unsafe { c::mq_at(burst, direction, factor, tfci, tpc, chip) }
}

#[inline]
pub fn beacon(sync: u32, k: u32) -> MqBeacons {
    unsafe { c::mq_beacon(sync, k) }
}

#[inline]
pub fn indicator(burst: u32, length: u32, frames: u32, number: u32) -> MqIndicator {
    unsafe { c::mq_indicator(burst, length, frames, number) }
}

#[inline]
pub fn owner(burst: u32, length: u32, bit: u32) -> MqOwner {
    unsafe { c::mq_owner(burst, length, bit) }
}

#[inline]
pub fn page(burst: u32, length: u32, settings: &[u8], out: &mut [u8]) -> MqAnswer {
    unsafe {
        c::mq_page(burst, length, settings.as_ptr(), settings.len(), out.as_mut_ptr(), out.len())
    }
}

#[inline]
pub fn read(burst: u32, length: u32, bits: &[u8], out: &mut [u8]) -> MqAnswer {
    unsafe {
        c::mq_read_page(burst, length, bits.as_ptr(), bits.len(), out.as_mut_ptr(), out.len())
    }
}

#[inline]
pub fn refusal_text(number: u32, out: &mut [u8]) -> MqAnswer {
    unsafe { c::mq_refusal_text(number, out.as_mut_ptr(), out.len()) }
}

#[inline]
pub fn empty_book() -> MqBook {
    unsafe { c::mq_empty_book() }
}

#[inline]
pub fn open(
    b: MqBook,
    seat: u32,
    cell: u32,
    sync: u32,
    k: u32,
    long: u32,
    short: u32,
) -> MqBookAnswer {
    unsafe { c::mq_open_value(b, seat, cell, sync, k, long, short) }
}

/// `x`: timeslot, direction, burst type, factor, index, user, TFCI bits, TPC bits.
#[inline]
pub fn book(b: MqBook, seat: u32, x: [u32; 8]) -> MqBookAnswer {
    unsafe { c::mq_book_value(b, seat, x[0], x[1], x[2], x[3], x[4], x[5], x[6], x[7]) }
}

#[inline]
pub fn cancel(b: MqBook, seat: u32, timeslot: u32, factor: u32, index: u32) -> MqBookAnswer {
    unsafe { c::mq_cancel_value(b, seat, timeslot, factor, index) }
}

#[inline]
pub fn close(b: MqBook, seat: u32) -> MqBookAnswer {
    unsafe { c::mq_close_value(b, seat) }
}

#[inline]
pub fn list(b: MqBook, seat: u32, out: &mut [u8]) -> MqAnswer {
    unsafe { c::mq_list_bytes(b, seat, out.as_mut_ptr(), out.len()) }
}

#[inline]
pub fn summary(b: MqBook, seat: u32, timeslot: u32) -> MqSummary {
    unsafe { c::mq_summary_value(b, seat, timeslot) }
}
