//! Paging bits.

use library::{MqAnswer, MqIndicator, MqOwner};

/// What a burst of the PICH holds.
struct Pich {
    /// Bits of an indicator in each half.
    length: usize,
    /// Half the carrying bits.
    half: usize,
    indicators: usize,
}

fn pich(burst: u32, length: u32) -> Result<Pich, u32> {
    let half = match burst {
        1 => 120,
        2 => 136,
        3 => return Err(10),
        _ => return Err(2),
    };
    if !matches!(length, 2 | 4 | 8) {
        return Err(10);
    }
    let length = length as usize;
    Ok(Pich { length, half, indicators: half / length })
}

#[inline(never)]
pub fn indicator(burst: u32, length: u32, frames: u32, number: u32) -> MqIndicator {
    let refused = |refusal| MqIndicator { refusal, ..MqIndicator::default() };
    let pich = match pich(burst, length) {
        Ok(pich) => pich,
        Err(refusal) => return refused(refusal),
    };
    let n = pich.indicators as u32;
    if !(1..=4).contains(&frames) || number >= n * frames {
        return refused(10);
    }
    let q = number % n;
    MqIndicator {
        refusal: 0,
        frame: number / n,
        q,
        first: length * q,
        second: pich.half as u32 + length * q,
        length,
    }
}

#[inline(never)]
pub fn owner(burst: u32, length: u32, bit: u32) -> MqOwner {
    let refused = |refusal| MqOwner { refusal, ..MqOwner::default() };
    let half = match pich(burst, length) {
        Ok(pich) => pich.half as u32,
        Err(refusal) => return refused(refusal),
    };
    if bit < half {
        MqOwner { refusal: 0, reserved: 0, q: bit / length }
    } else if bit < half + 4 {
        MqOwner { refusal: 0, reserved: 1, q: 0 }
    } else if bit < 2 * half + 4 {
        MqOwner { refusal: 0, reserved: 0, q: (bit - half - 4) / length }
    } else {
        refused(10)
    }
}

#[inline(never)]
pub fn page(burst: u32, length: u32, settings: &[u8], out: &mut [u8]) -> MqAnswer {
    let Pich { length, half, indicators } = match pich(burst, length) {
        Ok(pich) => pich,
        Err(refusal) => return MqAnswer::refusing(refusal),
    };
    let bits = 2 * half + 4;
    if settings.len() < indicators || out.len() < bits {
        return MqAnswer::refusing(11);
    }
    let (first, rest) = out[..bits].split_at_mut(half);
    let (reserved, second) = rest.split_at_mut(4);
    for (q, setting) in settings[..indicators].iter().enumerate() {
        let bit = (*setting != 0) as u8;
        let places = length * q..length * (q + 1);
        first[places.clone()].fill(bit);
        second[places].fill(bit);
    }
    reserved.fill(0);
    MqAnswer::giving(bits as u32)
}

#[inline(never)]
pub fn read(burst: u32, length: u32, bits: &[u8], out: &mut [u8]) -> MqAnswer {
    let Pich { length, half, indicators } = match pich(burst, length) {
        Ok(pich) => pich,
        Err(refusal) => return MqAnswer::refusing(refusal),
    };
    let all = 2 * half + 4;
    if bits.len() < all || out.len() < indicators {
        return MqAnswer::refusing(11);
    }
    let firsts = bits[..half].chunks_exact(length);
    let seconds = bits[half + 4..all].chunks_exact(length);
    for ((reading, first), second) in out.iter_mut().zip(firsts).zip(seconds) {
        let on = first.iter().chain(second).filter(|bit| **bit != 0).count();
        *reading = if on == 0 {
            0
        } else if on == 2 * length {
            1
        } else {
            2
        };
    }
    MqAnswer::giving(indicators as u32)
}
