//! The copy of a row table: the language copies a constant array to the stack once a call that reads it.
//!
//! Plain Rust copies the same bytes by one memcpy, the quickest copy that we know of: where that is taken off the
//! library's time, rather too little is. What the library's own copy takes is seen by a block of one chip, which is read
//! out of the copied table: so much more it takes than plain Rust's, which reads the table where it lies. Whatever else
//! such a block takes longer in the library is in it, so that here rather too much is taken off. How long a copy takes
//! moves with where the stack begins, from run to run; a block of one chip has its copy where a longer one has it.

use crate::plain::blocks as plain;
use crate::plain::midambles::{code_of, LONG, SHORT};
use library::{MqBlock, MqBlockPlace};
use std::cell::Cell;
use std::hint::black_box;

pub struct TableCopy {
    pub what: &'static str,
    pub make: fn(),
    /// What is made with it and is no part of it.
    pub besides: fn(),
}

pub const LONG_COPY: TableCopy =
    TableCopy { what: "the long one", make: || copy(&LONG_ROWS), besides: || () };
pub const SHORT_COPY: TableCopy =
    TableCopy { what: "the short one", make: || copy(&SHORT_ROWS), besides: || () };

/// The library's own.
pub const LONG_OWN: TableCopy = TableCopy {
    what: "the library's long one",
    make: || one_chip(1, 16, library::block),
    besides: || one_chip(1, 16, plain::block),
};
pub const SHORT_OWN: TableCopy = TableCopy {
    what: "the library's short one",
    make: || one_chip(2, 6, library::block),
    besides: || one_chip(2, 6, plain::block),
};

/// A block of one chip: the next cell, user and place each time, over all cells and users.
fn one_chip(burst: u32, count: u32, block: fn(MqBlockPlace, &mut [u8]) -> MqBlock) {
    thread_local!(static TURN: Cell<u32> = const { Cell::new(0) });
    let turn = TURN.get();
    TURN.set((turn + 1) % 1_000_000);
    let (cell, user) = (turn % 128, 1 + turn / 128 % count);
    let written = 61 * turn % code_of(burst).length;
    black_box(block(MqBlockPlace { cell, burst, count, user, written }, &mut [0]));
}

/// A row table at an address that 64 divides, and so its copy on the stack. Where the copy stands in its page a few
/// bytes behind where the table does, some processors copy far more slowly, and where the stack begins changes from run
/// to run.
#[derive(Clone, Copy)]
#[repr(align(64))]
struct Rows<const N: usize>([u8; N]);

static LONG_ROWS: Rows<7296> = Rows(LONG);
static SHORT_ROWS: Rows<3072> = Rows(SHORT);

#[inline(never)]
fn copy<const N: usize>(table: &Rows<N>) {
    let copied = *table;
    black_box(&copied.0);
}

/// The copy of the table that a burst type reads.
pub fn copy_of(burst: u32) -> &'static TableCopy {
    if burst == 2 {
        return &SHORT_COPY;
    }
    &LONG_COPY
}

/// The library's own copy of it.
pub fn own_copy_of(burst: u32) -> &'static TableCopy {
    if burst == 2 {
        return &SHORT_OWN;
    }
    &LONG_OWN
}
