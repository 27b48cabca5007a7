//! Document 01, "Paging bits (clause 5.3.7)".

use crate::refusals::{refuse_if, refuse_unknown_type, Answer};

/// What a timeslot of the PICH holds, for a burst type and an indicator length that are not refused.
struct Pich {
    /// L, in symbols.
    indicator_length: usize,
    /// 240 or 272.
    carrying_bits: usize,
    /// N
    indicators: usize,
}

/// Refusals 2 and 10, and then the numbers of the section's first two sentences.
fn pich(burst_type: u32, indicator_length: u32) -> Answer<Pich> {
    refuse_unknown_type(burst_type)?;
    refuse_if(burst_type == 3, 10)?;
    refuse_if(![2, 4, 8].contains(&indicator_length), 10)?;
    let carrying_bits = if burst_type == 1 { 240 } else { 272 };
    let indicators = match (burst_type, indicator_length) {
        (1, 2) => 60,
        (1, 4) => 30,
        (1, _) => 15,
        (_, 2) => 68,
        (_, 4) => 34,
        (_, _) => 17,
    };
    Ok(Pich { indicator_length: indicator_length as usize, carrying_bits, indicators })
}

impl Pich {
    /// The carrying bits of indicator q: "L bits from Lq, and L bits from half the carrying bits plus Lq".
    fn carrying_bits_of(&self, q: usize) -> [Vec<usize>; 2] {
        let length = self.indicator_length;
        let first = length * q;
        let second = self.carrying_bits / 2 + length * q;
        [(first..first + length).collect(), (second..second + length).collect()]
    }

    /// For each bit of the burst in time order, the indicator that owns it, or nothing for a reserved bit: "first half
    /// of the carrying bits, reserved 0 and 1, midamble, reserved 2 and 3, second half".
    fn owners(&self) -> Vec<Option<usize>> {
        let mut carrying = vec![None; self.carrying_bits];
        for q in 0..self.indicators {
            for bit in self.carrying_bits_of(q).concat() {
                carrying[bit] = Some(q);
            }
        }
        let (first_half, second_half) = carrying.split_at(self.carrying_bits / 2);
        let before_midamble = [None, None];
        let after_midamble = [None, None];
        [first_half, &before_midamble, &after_midamble, second_half].concat()
    }
}

/// Where an indicator sits.
pub struct Place {
    pub frame: usize,
    pub q: usize,
    /// The two runs of bits, counted from 0 among the carrying bits.
    pub bits: [Vec<usize>; 2],
}

/// The place of indicator number PI. Refusals 2, 10.
pub fn indicator(
    burst_type: u32,
    indicator_length: u32,
    frames: u32,
    number: u32,
) -> Answer<Place> {
    let pich = pich(burst_type, indicator_length)?;
    refuse_if(!(1..=4).contains(&frames), 10)?;
    let number = number as usize;
    refuse_if(number >= pich.indicators * frames as usize, 10)?;
    let q = number % pich.indicators;
    Ok(Place { frame: number / pich.indicators, q, bits: pich.carrying_bits_of(q) })
}

/// Which q owns a bit, named by its place in time order, or nothing where it is reserved. Refusals 2, 10.
pub fn owner(burst_type: u32, indicator_length: u32, bit: u32) -> Answer<Option<usize>> {
    let owners = pich(burst_type, indicator_length)?.owners();
    refuse_if(bit as usize >= owners.len(), 10)?;
    Ok(owners[bit as usize])
}

/// Writes one frame's N settings (0 off, any other on) as bits in time order; the number of bytes written. Refusals 2,
/// 10, 11.
pub fn write(
    burst_type: u32,
    indicator_length: u32,
    settings: &[u8],
    output: &mut [u8],
) -> Answer<usize> {
    let pich = pich(burst_type, indicator_length)?;
    let owners = pich.owners();
    refuse_if(settings.len() < pich.indicators, 11)?;
    refuse_if(output.len() < owners.len(), 11)?;
    for (bit, owner) in owners.iter().enumerate() {
        output[bit] = match owner {
            Some(q) if settings[*q] != 0 => 1,
            Some(_) => 0,
            None => 0,
        };
    }
    Ok(owners.len())
}

/// Reads one byte for each q from bits in time order; the number of bytes written. Refusals 2, 10, 11.
pub fn read(
    burst_type: u32,
    indicator_length: u32,
    bits: &[u8],
    output: &mut [u8],
) -> Answer<usize> {
    let pich = pich(burst_type, indicator_length)?;
    let owners = pich.owners();
    refuse_if(bits.len() < owners.len(), 11)?;
    refuse_if(output.len() < pich.indicators, 11)?;
    for q in 0..pich.indicators {
        let places = (0..owners.len()).filter(|place| owners[*place] == Some(q));
        output[q] = reading(places.map(|place| bits[place] != 0).collect());
    }
    Ok(pich.indicators)
}

/// "0 off, 1 on, or 2 torn where its bits differ".
fn reading(bits: Vec<bool>) -> u8 {
    if bits.iter().all(|bit| !bit) {
        0
    } else if bits.iter().all(|bit| *bit) {
        1
    } else {
        2
    }
}

/// `frame X q Y bits A..B C..D`.
pub fn place_words(place: Place) -> String {
    let run = |bits: &[usize]| format!("{}..{}", bits[0], bits[bits.len() - 1]);
    format!(
        "frame {} q {} bits {} {}",
        place.frame,
        place.q,
        run(&place.bits[0]),
        run(&place.bits[1])
    )
}

/// `q Y` or `reserved`.
pub fn owner_words(owner: Option<usize>) -> String {
    match owner {
        Some(q) => format!("q {q}"),
        None => "reserved".to_string(),
    }
}
