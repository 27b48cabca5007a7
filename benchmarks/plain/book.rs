//! The class book: the same layout and the same tests of the whole book as the library's. A book goes in and comes
//! back by value; inside, references.

use super::midambles::{good_count, permitted};
use library::{MqAnswer, MqBook, MqBookAnswer, MqSummary, BOOK_BYTES};
use std::mem::{align_of, size_of, transmute};

#[derive(Clone, Copy, PartialEq, Eq)]
#[repr(u8)]
pub enum Direction {
    Up,
    Down,
}

#[derive(Clone, Copy)]
#[repr(C)]
pub struct Booking {
    pub timeslot: u8,
    pub direction: Direction,
    pub burst: u8,
    pub factor: u8,
    pub index: u8,
    pub user: u8,
    pub tfci: u8,
    pub tpc: u8,
}

const BLANK: Booking = Booking {
    timeslot: 0,
    direction: Direction::Up,
    burst: 0,
    factor: 0,
    index: 0,
    user: 0,
    tfci: 0,
    tpc: 0,
};

/// The direction of a timeslot's bookings, if it has any.
#[derive(Clone, Copy, PartialEq, Eq)]
#[repr(u8)]
pub enum Way {
    Neither,
    Up,
    Down,
}

/// What a seat's bookings say of one timeslot: leaf l is bit l of the pattern, which lies in two bytes, the low one
/// first.
#[derive(Clone, Copy, PartialEq, Eq)]
#[repr(C)]
pub struct Slot {
    pub leaves: [u8; 2],
    pub way: Way,
    pub count: u8,
    pub second: bool,
}

const FREE: Slot = Slot { leaves: [0, 0], way: Way::Neither, count: 0, second: false };

#[derive(Clone, Copy)]
#[repr(C)]
pub struct Seat {
    pub live: bool,
    pub cell: u8,
    pub sync: u8,
    pub k: u8,
    pub long: u8,
    pub short: u8,
    pub count: u8,
    pub row: [Booking; 40],
    pub slots: [Slot; 15],
}

const CLOSED: Seat = Seat {
    live: false,
    cell: 0,
    sync: 0,
    k: 0,
    long: 0,
    short: 0,
    count: 0,
    row: [BLANK; 40],
    slots: [FREE; 15],
};

#[derive(Clone, Copy)]
#[repr(C)]
pub struct Book {
    pub seats: [Seat; 16],
}

#[derive(Clone, Copy)]
pub struct Request {
    pub timeslot: u32,
    pub direction: Direction,
    pub burst: u32,
    pub factor: u32,
    pub index: u32,
    pub user: u32,
    pub tfci: u32,
    pub tpc: u32,
}

pub struct BookAnswer {
    pub refusal: u32,
    pub book: Book,
}

const EMPTY: Book = Book { seats: [CLOSED; 16] };

pub fn empty_book() -> Book {
    EMPTY
}

impl Request {
    fn refusal(&self) -> u32 {
        let down = self.direction == Direction::Down;
        if !(1..=3).contains(&self.burst) {
            return 2;
        }
        if self.user < 1 || self.user > if self.burst == 2 { 6 } else { 16 } {
            return 4;
        }
        if self.timeslot > 14 {
            return 5;
        }
        if !matches!(self.factor, 1 | 2 | 4 | 8 | 16)
            || self.index < 1
            || self.index > self.factor
            || (down && !matches!(self.factor, 1 | 16))
        {
            return 6;
        }
        if down && self.burst == 3 {
            return 7;
        }
        if !matches!(self.tfci, 0 | 4 | 8 | 16 | 32)
            || !matches!(self.tpc, 0 | 2)
            || (down && self.tpc == 2)
        {
            return 8;
        }
        0
    }

    fn kept(&self) -> Booking {
        Booking {
            timeslot: self.timeslot as u8,
            direction: self.direction,
            burst: self.burst as u8,
            factor: self.factor as u8,
            index: self.index as u8,
            user: self.user as u8,
            tfci: self.tfci as u8,
            tpc: self.tpc as u8,
        }
    }
}

impl Booking {
    fn well_formed(&self) -> bool {
        Request {
            timeslot: self.timeslot as u32,
            direction: self.direction,
            burst: self.burst as u32,
            factor: self.factor as u32,
            index: self.index as u32,
            user: self.user as u32,
            tfci: self.tfci as u32,
            tpc: self.tpc as u32,
        }
        .refusal()
            == 0
    }

    /// All its numbers in one, which is 0 where its place is blank.
    fn number(&self) -> u64 {
        u64::from_le_bytes([
            self.timeslot,
            self.direction as u8,
            self.burst,
            self.factor,
            self.index,
            self.user,
            self.tfci,
            self.tpc,
        ])
    }

    /// How many leaves its code covers: its factor is a power of two.
    fn leaves(&self) -> u32 {
        16 >> self.factor.trailing_zeros()
    }

    fn first_leaf(&self) -> u32 {
        (self.index as u32 - 1) * self.leaves()
    }

    fn key(&self) -> u32 {
        self.timeslot as u32 * 16 + self.first_leaf()
    }

    fn mask(&self) -> u16 {
        (((1u32 << self.leaves()) - 1) << self.first_leaf()) as u16
    }

    fn way(&self) -> Way {
        match self.direction {
            Direction::Up => Way::Up,
            Direction::Down => Way::Down,
        }
    }

    fn breaks_beacon(&self) -> bool {
        let first = self.factor == 16 && self.index == 1;
        self.direction == Direction::Up
            || self.burst != 1
            || (first && self.user != 1)
            || (self.user == 1 && !first)
            || matches!(self.user, 2 | 9 | 10)
            || (self.factor == 1 && self.index == 1)
    }
}

impl Slot {
    pub fn pattern(&self) -> u16 {
        u16::from_le_bytes(self.leaves)
    }

    /// The direction as a summary says it.
    pub fn direction(&self) -> u32 {
        match self.way {
            Way::Up => 0,
            Way::Down => 1,
            Way::Neither => 2,
        }
    }

    /// Whether a booking of this timeslot clashes with those that are there.
    fn clashes(&self, x: &Booking) -> bool {
        self.count != 0
            && (self.pattern() & x.mask() != 0
                || self.way != x.way()
                || self.second != (x.burst == 2))
    }

    /// One booking more, which does not clash.
    fn join(&mut self, x: &Booking) {
        self.leaves = (self.pattern() | x.mask()).to_le_bytes();
        self.way = x.way();
        self.count += 1;
        self.second = x.burst == 2;
    }
}

fn settings_refusal(cell: u32, long: u32, short: u32, sync: u32, k: u32) -> u32 {
    if cell > 127 {
        return 1;
    }
    if !good_count(1, long) || !good_count(2, short) {
        return 3;
    }
    if !((sync == 1 && k <= 14) || (sync == 2 && k <= 6)) {
        return 9;
    }
    0
}

/// A seat just opened with these settings. Refusals 1, 3, 9.
fn opened(cell: u32, sync: u32, k: u32, long: u32, short: u32) -> Result<Seat, u32> {
    let long = if long == 0 { 8 } else { long };
    let short = if short == 0 { 3 } else { short };
    match settings_refusal(cell, long, short, sync, k) {
        0 => Ok(Seat {
            live: true,
            cell: cell as u8,
            sync: sync as u8,
            k: k as u8,
            long: long as u8,
            short: short as u8,
            ..CLOSED
        }),
        refusal => Err(refusal),
    }
}

impl Seat {
    fn held(&self) -> usize {
        (self.count as usize).min(40)
    }

    fn bookings(&self) -> &[Booking] {
        &self.row[..self.held()]
    }

    fn beyond_ten(&self) -> usize {
        self.held().saturating_sub(10)
    }

    fn not_permitted(&self, x: &Booking) -> bool {
        let count = if x.burst == 2 { self.short } else { self.long };
        !permitted(count as u32, x.user as u32)
    }

    fn is_beacon(&self, t: u8) -> bool {
        match self.sync {
            1 => t == self.k,
            2 => t == self.k || t as u32 == self.k as u32 + 8,
            _ => false,
        }
    }

    fn off_beacon(&self, x: &Booking) -> bool {
        self.is_beacon(x.timeslot) && x.breaks_beacon()
    }

    fn settings_ok(&self) -> bool {
        if !self.live {
            return self.cell == 0
                && self.sync == 0
                && self.k == 0
                && self.long == 0
                && self.short == 0
                && self.count == 0;
        }
        settings_refusal(
            self.cell as u32,
            self.long as u32,
            self.short as u32,
            self.sync as u32,
            self.k as u32,
        ) == 0
            && self.count <= 40
    }

    /// Whether each of its bookings may stand, each comes before its neighbour, no two clash, and its timeslots say what
    /// they hold.
    fn bookings_ok(&self) -> bool {
        let mut made = [FREE; 15];
        let mut next = 0;
        for x in self.bookings() {
            if !x.well_formed() || self.not_permitted(x) || self.off_beacon(x) || x.key() < next {
                return false;
            }
            next = x.key() + 1;
            let slot = &mut made[x.timeslot as usize];
            if slot.clashes(x) {
                return false;
            }
            slot.join(x);
        }
        made == self.slots
    }

    fn is_ok(&self) -> bool {
        self.settings_ok()
            && self.row[self.held()..].iter().fold(0, |all, x| all | x.number()) == 0
            && self.bookings_ok()
    }

    fn add(&mut self, x: Booking) {
        let held = self.held();
        let at = self.bookings().partition_point(|y| y.key() < x.key());
        self.row.copy_within(at..held, at + 1);
        self.row[at] = x;
        self.slots[x.timeslot as usize].join(&x);
        self.count += 1;
    }

    fn remove(&mut self, at: usize) {
        let t = self.row[at].timeslot;
        let held = self.held();
        self.row.copy_within(at + 1..held, at);
        self.row[held - 1] = BLANK;
        self.count -= 1;
        let mut slot = FREE;
        for x in self.bookings().iter().filter(|x| x.timeslot == t) {
            slot.join(x);
        }
        self.slots[t as usize] = slot;
    }
}

impl Book {
    fn is_ok(&self) -> bool {
        self.seats.iter().all(Seat::is_ok) && self.common_room() <= 80
    }

    fn common_room(&self) -> usize {
        self.seats.iter().map(Seat::beyond_ten).sum()
    }

    /// Refusals 12 to 14.
    fn seat_refusal(&self, seat: u32) -> u32 {
        if !self.is_ok() {
            12
        } else if seat > 15 {
            13
        } else if !self.seats[seat as usize].live {
            14
        } else {
            0
        }
    }

    fn open(&mut self, seat: u32, settings: Seat) -> u32 {
        match self.seat_refusal(seat) {
            0 => 15,
            14 => {
                self.seats[seat as usize] = settings;
                0
            }
            refusal => refusal,
        }
    }

    fn book(&mut self, seat: u32, x: Booking) -> u32 {
        let refusal = self.seat_refusal(seat);
        if refusal != 0 {
            return refusal;
        }
        let s = &self.seats[seat as usize];
        if s.not_permitted(&x) {
            return 16;
        }
        if s.slots[x.timeslot as usize].clashes(&x) {
            return 17;
        }
        if s.off_beacon(&x) {
            return 18;
        }
        if s.held() == 40 {
            return 19;
        }
        if s.held() >= 10 && self.common_room() == 80 {
            return 20;
        }
        self.seats[seat as usize].add(x);
        0
    }

    fn cancel(&mut self, seat: u32, timeslot: u32, factor: u32, index: u32) -> u32 {
        let refusal = self.seat_refusal(seat);
        if refusal != 0 {
            return refusal;
        }
        let s = &mut self.seats[seat as usize];
        let named = |y: &Booking| {
            y.timeslot as u32 == timeslot && y.factor as u32 == factor && y.index as u32 == index
        };
        match s.bookings().iter().position(named) {
            Some(at) => {
                s.remove(at);
                0
            }
            None => 21,
        }
    }

    fn close(&mut self, seat: u32) -> u32 {
        let refusal = self.seat_refusal(seat);
        if refusal == 0 {
            self.seats[seat as usize] = CLOSED;
        }
        refusal
    }
}

/// A booking inside the program, the book by value: what growth.rs measures.
#[inline(never)]
pub fn book_code(mut book: Book, seat: u32, x: Request) -> BookAnswer {
    let mut refusal = x.refusal();
    if refusal == 0 {
        refusal = book.book(seat, x.kept());
    }
    BookAnswer { refusal, book }
}

pub fn open_seat(
    mut book: Book,
    seat: u32,
    cell: u32,
    sync: u32,
    k: u32,
    long: u32,
    short: u32,
) -> BookAnswer {
    let refusal = match opened(cell, sync, k, long, short) {
        Ok(settings) => book.open(seat, settings),
        Err(refusal) => refusal,
    };
    BookAnswer { refusal, book }
}

// The calls on the caller's 6,432 bytes, by value. A caller's byte may be any: where one is none of the two or three
// that `live`, `direction`, `way` or `second` can be, the book is refused as broken.

impl Book {
    fn of(bytes: &mut MqBook) -> Option<&mut Book> {
        let seats = bytes.0.chunks_exact(size_of::<Seat>());
        let fine = |seat: &[u8]| {
            seat[0] < 2
                && seat[7..327].chunks_exact(8).all(|booking| booking[1] < 2)
                && seat[327..].chunks_exact(5).all(|slot| slot[2] < 3 && slot[4] < 2)
        };
        if !seats.into_iter().all(fine) {
            return None;
        }
        // SAFETY: both are BOOK_BYTES long and of alignment 1 (asserted below), and the only bytes of a Book that may
        // not be any were just tested.
        Some(unsafe { &mut *(bytes as *mut MqBook).cast::<Book>() })
    }
}

const _: () = assert!(size_of::<Book>() == BOOK_BYTES && align_of::<Book>() == 1);

fn changed(mut book: MqBook, change: impl FnOnce(&mut Book) -> u32) -> MqBookAnswer {
    let refusal = Book::of(&mut book).map_or(12, change);
    MqBookAnswer { refusal, book }
}

#[inline(never)]
pub fn empty() -> MqBook {
    // SAFETY: both are BOOK_BYTES long (asserted above), and a Book has no bytes between its fields.
    const BYTES: MqBook = unsafe { transmute(EMPTY) };
    BYTES
}

#[inline(never)]
pub fn open(
    book: MqBook,
    seat: u32,
    cell: u32,
    sync: u32,
    k: u32,
    long: u32,
    short: u32,
) -> MqBookAnswer {
    match opened(cell, sync, k, long, short) {
        Ok(settings) => changed(book, |b| b.open(seat, settings)),
        Err(refusal) => MqBookAnswer { refusal, book },
    }
}

/// `x`: timeslot, direction, burst type, factor, index, user, TFCI bits, TPC bits.
#[inline(never)]
pub fn book(book: MqBook, seat: u32, x: [u32; 8]) -> MqBookAnswer {
    let [timeslot, direction, burst, factor, index, user, tfci, tpc] = x;
    let request = Request {
        timeslot,
        direction: if direction == 1 { Direction::Down } else { Direction::Up },
        burst,
        // A direction that is neither is refused as a factor that is none.
        factor: if direction > 1 { 0 } else { factor },
        index,
        user,
        tfci,
        tpc,
    };
    match request.refusal() {
        0 => changed(book, |b| b.book(seat, request.kept())),
        refusal => MqBookAnswer { refusal, book },
    }
}

#[inline(never)]
pub fn cancel(book: MqBook, seat: u32, timeslot: u32, factor: u32, index: u32) -> MqBookAnswer {
    if timeslot > 14 {
        return MqBookAnswer { refusal: 5, book };
    }
    if !matches!(factor, 1 | 2 | 4 | 8 | 16) || index < 1 || index > factor {
        return MqBookAnswer { refusal: 6, book };
    }
    changed(book, |b| b.cancel(seat, timeslot, factor, index))
}

#[inline(never)]
pub fn close(book: MqBook, seat: u32) -> MqBookAnswer {
    changed(book, |b| b.close(seat))
}

#[inline(never)]
pub fn list(mut book: MqBook, seat: u32, out: &mut [u8]) -> MqAnswer {
    if out.len() < 320 {
        return MqAnswer::refusing(11);
    }
    let Some(b) = Book::of(&mut book) else {
        return MqAnswer::refusing(12);
    };
    let refusal = b.seat_refusal(seat);
    if refusal != 0 {
        return MqAnswer::refusing(refusal);
    }
    let bookings = b.seats[seat as usize].bookings();
    for (record, x) in out.chunks_exact_mut(8).zip(bookings) {
        record.copy_from_slice(&[
            x.timeslot,
            x.direction as u8,
            x.burst,
            x.factor,
            x.index,
            x.user,
            x.tfci,
            x.tpc,
        ]);
    }
    MqAnswer::giving(bookings.len() as u32)
}

#[inline(never)]
pub fn summary(mut book: MqBook, seat: u32, timeslot: u32) -> MqSummary {
    let refusing = |refusal| MqSummary { refusal, ..MqSummary::default() };
    if timeslot > 14 {
        return refusing(5);
    }
    let Some(b) = Book::of(&mut book) else {
        return refusing(12);
    };
    let refusal = b.seat_refusal(seat);
    if refusal != 0 {
        return refusing(refusal);
    }
    let slot = &b.seats[seat as usize].slots[timeslot as usize];
    MqSummary {
        refusal: 0,
        leaves: slot.pattern() as u32,
        direction: slot.direction(),
        count: slot.count as u32,
    }
}
