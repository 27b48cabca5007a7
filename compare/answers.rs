//! What the calls answer: the structs of include/mqarbset.h.

pub const BOOK_BYTES: usize = 6432;

#[repr(C)]
#[derive(Clone, Copy, Debug, PartialEq, Eq)]
pub struct MqAnswer {
    pub refusal: u32,
    pub value: u32,
}

impl MqAnswer {
    #[inline]
    pub fn refusing(refusal: u32) -> MqAnswer {
        MqAnswer { refusal, value: 0 }
    }

    #[inline]
    pub fn giving(value: u32) -> MqAnswer {
        MqAnswer { refusal: 0, value }
    }
}

/// A place in a midamble.
#[repr(C)]
#[derive(Clone, Copy, Debug, Default, PartialEq, Eq)]
pub struct MqBlockPlace {
    pub cell: u32,
    pub burst: u32,
    pub count: u32,
    pub user: u32,
    pub written: u32,
}

#[repr(C)]
#[derive(Clone, Copy, Debug, Default, PartialEq, Eq)]
pub struct MqBlockStart {
    pub refusal: u32,
    pub place: MqBlockPlace,
}

#[repr(C)]
#[derive(Clone, Copy, Debug, Default, PartialEq, Eq)]
pub struct MqBlock {
    pub refusal: u32,
    pub written: u32,
    pub place: MqBlockPlace,
}

/// A chip for the signal card. Two are the same where their bits are: minus zero is not zero.
#[repr(C)]
#[derive(Clone, Copy, Debug, Default)]
pub struct MqPair {
    pub refusal: u32,
    pub re: f32,
    pub im: f32,
}

impl PartialEq for MqPair {
    fn eq(&self, other: &MqPair) -> bool {
        let bits = |pair: &MqPair| (pair.refusal, pair.re.to_bits(), pair.im.to_bits());
        bits(self) == bits(other)
    }
}

/// Who is on the air. Two are the same where their bits are.
#[repr(C)]
#[derive(Clone, Copy, Debug, Default)]
pub struct MqHear {
    pub refusal: u32,
    pub user: u32,
    pub re: f32,
    pub im: f32,
}

impl PartialEq for MqHear {
    fn eq(&self, other: &MqHear) -> bool {
        let bits =
            |heard: &MqHear| (heard.refusal, heard.user, heard.re.to_bits(), heard.im.to_bits());
        bits(self) == bits(other)
    }
}

#[repr(C)]
#[derive(Clone, Copy, Debug, Default, PartialEq, Eq)]
pub struct MqParts {
    pub refusal: u32,
    pub start: [u32; 7],
    pub length: [u32; 7],
    pub bits: [u32; 2],
}

#[repr(C)]
#[derive(Clone, Copy, Debug, Default, PartialEq, Eq)]
pub struct MqPlace {
    pub refusal: u32,
    pub part: u32,
    pub number: u32,
}

#[repr(C)]
#[derive(Clone, Copy, Debug, Default, PartialEq, Eq)]
pub struct MqBeacons {
    pub refusal: u32,
    pub count: u32,
    pub first: u32,
    pub second: u32,
}

#[repr(C)]
#[derive(Clone, Copy, Debug, Default, PartialEq, Eq)]
pub struct MqIndicator {
    pub refusal: u32,
    pub frame: u32,
    pub q: u32,
    pub first: u32,
    pub second: u32,
    pub length: u32,
}

#[repr(C)]
#[derive(Clone, Copy, Debug, Default, PartialEq, Eq)]
pub struct MqOwner {
    pub refusal: u32,
    pub reserved: u32,
    pub q: u32,
}

#[repr(C)]
#[derive(Clone, Copy, Debug, PartialEq, Eq)]
pub struct MqBook(pub [u8; BOOK_BYTES]);

#[repr(C)]
#[derive(Clone, Copy, Debug, PartialEq, Eq)]
pub struct MqBookAnswer {
    pub refusal: u32,
    pub book: MqBook,
}

/// What a seat's bookings say of a timeslot.
#[repr(C)]
#[derive(Clone, Copy, Debug, Default, PartialEq, Eq)]
pub struct MqSummary {
    pub refusal: u32,
    pub leaves: u32,
    pub direction: u32,
    pub count: u32,
}
