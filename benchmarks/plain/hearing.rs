//! Who is on the air: the same tests, over tables that lie in memory. The received pairs are turned by (-j)^i once, for
//! all users; a user's two sums are then dot products with the row's signs from the user's shift on, turned by
//! (-j)^shift. All in f32, in lanes: every sum is a whole number below 2^24, and so exact in whatever order it is added.

use super::digits::row_of;
use super::midambles::{code_of, count_refusal, permitted, shift, Code, LONG, SHORT};
use library::MqHear;
use std::array::from_fn;

/// The signs of each digit's four elements.
static SIGNS: [[f32; 4]; 16] = signs();

const fn signs() -> [[f32; 4]; 16] {
    let mut signs = [[-1.0; 4]; 16];
    let mut d = 0;
    while d < 16 {
        let mut e = 0;
        while e < 4 {
            if (d >> (3 - e)) & 1 == 1 {
                signs[d][e] = 1.0;
            }
            e += 1;
        }
        d += 1;
    }
    signs
}

/// Fills in the signs of a row, as far as its users read them: behind its end it begins again.
#[inline(always)]
fn fill_signs(row: &[u8], out: &mut [f32]) {
    let (first, mut rest) = out.split_at_mut(8 * row.len());
    for (place, b) in first.chunks_exact_mut(8).zip(row) {
        place[..4].copy_from_slice(&SIGNS[(b >> 4) as usize]);
        place[4..].copy_from_slice(&SIGNS[(b & 15) as usize]);
    }
    while !rest.is_empty() {
        let (again, later) = rest.split_at_mut(first.len().min(rest.len()));
        again.copy_from_slice(&first[..again.len()]);
        rest = later;
    }
}

/// Whether each is a whole number from -2047 to 2047. The sum rounds what is no whole number: behind 1.5 times 2^23 the
/// floats are whole. All are tested, whatever the first ones are: so it is done in lanes.
#[inline(always)]
fn all_samples(row: &[f32]) -> bool {
    const WHOLE: f32 = 12_582_912.0;
    row.iter().fold(true, |all, &x| all & (x >= -2047.0) & (x <= 2047.0) & (x + WHOLE - WHOLE == x))
}

/// Sixteen of four by turns.
const fn by_turns(four: [u32; 4]) -> [u32; 16] {
    let mut sixteen = [0; 16];
    let mut l = 0;
    while l < 16 {
        sixteen[l] = four[l % 4];
        l += 1;
    }
    sixteen
}

const SIGN: u32 = 1 << 31;
/// In the turn by (-j)^i, i from 1, in which pairs the parts change places, and which of the new ones their sign.
const SWAPPED: [u32; 16] = by_turns([!0, 0, !0, 0]);
const RE_SIGNS: [u32; 16] = by_turns([0, SIGN, SIGN, 0]);
const IM_SIGNS: [u32; 16] = by_turns([SIGN, SIGN, 0, 0]);

/// The real and the imaginary parts of pairs, at addresses that 64 divides: so no lane lies on two lines of the cache.
#[repr(align(64))]
struct Parts<const N: usize> {
    re: [f32; N],
    im: [f32; N],
}

/// Turns the pairs, by the bits of their floats: so it needs no test.
#[inline(always)]
fn turn<const N: usize>(row: &[f32], parts: &mut Parts<N>) {
    let (re, im) = (parts.re.chunks_exact_mut(16), parts.im.chunks_exact_mut(16));
    for ((pairs, re), im) in row[..2 * N].chunks_exact(32).zip(re).zip(im) {
        for l in 0..16 {
            let (x, y) = (pairs[2 * l].to_bits(), pairs[2 * l + 1].to_bits());
            let s = SWAPPED[l];
            re[l] = f32::from_bits(((y & s) | (x & !s)) ^ RE_SIGNS[l]);
            im[l] = f32::from_bits(((x & s) | (y & !s)) ^ IM_SIGNS[l]);
        }
    }
}

/// The sums turned by (-j)^by. No minus zero.
#[inline(always)]
fn turned_by(by: u32, re: f32, im: f32) -> [f32; 2] {
    match by % 4 {
        0 => [re, im],
        1 => [im, 0.0 - re],
        2 => [0.0 - re, 0.0 - im],
        _ => [0.0 - im, re],
    }
}

/// The sum of all lanes: half of them are added to the other half until there are four.
#[inline(always)]
fn joined<const LANES: usize>(mut lanes: [f32; LANES]) -> f32 {
    let mut half = LANES / 2;
    while half >= 4 {
        for l in 0..half {
            lanes[l] += lanes[l + half];
        }
        half /= 2;
    }
    lanes[..4].iter().sum()
}

/// The dot products of a row with the signs of some users at once, in so many lanes each.
#[inline(always)]
fn dots<const N: usize, const USERS: usize, const LANES: usize>(
    row: &[f32; N],
    signs: [&[f32; N]; USERS],
) -> [f32; USERS] {
    let mut lanes = [[0.0; LANES]; USERS];
    for m in (0..N).step_by(LANES) {
        for u in 0..USERS {
            for l in 0..LANES {
                lanes[u][l] += row[m + l] * signs[u][m + l];
            }
        }
    }
    lanes.map(joined)
}

/// The sums of these users, so many at once; of the last ones the last user's stands for those that are missing.
#[inline(always)]
fn sums<const N: usize, const USERS: usize, const LANES: usize>(
    c: &Code,
    users: &[u32],
    signs: &[f32],
    row: &[f32],
) -> [[f32; 2]; 16] {
    let mut parts = Parts { re: [0.0; N], im: [0.0; N] };
    turn(row, &mut parts);
    let mut sums = [[0.0; 2]; 16];
    for (users, sums) in users.chunks(USERS).zip(sums.chunks_mut(USERS)) {
        let by: [u32; USERS] = from_fn(|u| shift(c, users[u.min(users.len() - 1)]));
        let from = by.map(|by| signs[by as usize..].first_chunk().expect("as many are read"));
        let re = dots::<N, USERS, LANES>(&parts.re, from);
        let im = dots::<N, USERS, LANES>(&parts.im, from);
        for (u, sums) in sums.iter_mut().enumerate().take(users.len()) {
            *sums = turned_by(by[u], re[u], im[u]);
        }
    }
    sums
}

/// The sums of users 1 to 16 of a long code; the row has 1,024 floats, and all are samples.
pub fn sixteen_sums(cell: u32, row: &[f32]) -> [[f32; 2]; 16] {
    let mut signs = [0.0; 939];
    fill_signs(row_of(&LONG, 57, cell), &mut signs);
    sums::<512, 1, 16>(&code_of(1), &from_fn::<u32, 16, _>(|u| u as u32 + 1), &signs, row)
}

/// The user with the greatest sum of squares, over whole numbers: the lowest on a tie, and nobody if all are zero.
#[inline(always)]
fn loudest(users: &[u32], sums: &[[f32; 2]; 16]) -> MqHear {
    let mut heard = MqHear { refusal: 0, user: 0, re: 0.0, im: 0.0 };
    let mut most = 0;
    for (&user, &[re, im]) in users.iter().zip(sums) {
        let squares = (re as i64).pow(2) + (im as i64).pow(2);
        if squares > most {
            most = squares;
            heard = MqHear { refusal: 0, user, re, im };
        }
    }
    heard
}

fn refusal(cell: u32, burst: u32, count: u32, row: &[f32]) -> u32 {
    let n = count_refusal(cell, burst, count);
    if n != 0 {
        return n;
    }
    let floats = 2 * code_of(burst).length as usize;
    if row.len() < floats {
        return 11;
    }
    if !all_samples(&row[..floats]) {
        return 24;
    }
    0
}

#[inline(always)]
fn whole<const USERS: usize, const LANES: usize>(
    cell: u32,
    burst: u32,
    count: u32,
    row: &[f32],
) -> MqHear {
    let refusal = refusal(cell, burst, count, row);
    if refusal != 0 {
        return MqHear { refusal, user: 0, re: 0.0, im: 0.0 };
    }
    let mut users = [0; 16];
    let mut n = 0;
    for user in (1..=16).filter(|user| permitted(count, *user)) {
        users[n] = user;
        n += 1;
    }
    let (c, users) = (code_of(burst), &users[..n]);
    if burst == 2 {
        let mut signs = [0.0; 416];
        fill_signs(row_of(&SHORT, 24, cell), &mut signs);
        return loudest(users, &sums::<256, USERS, LANES>(&c, users, &signs, row));
    }
    let mut signs = [0.0; 939];
    fill_signs(row_of(&LONG, 57, cell), &mut signs);
    loudest(users, &sums::<512, USERS, LANES>(&c, users, &signs, row))
}

/// One user after the other, in sixteen lanes.
#[inline(never)]
pub fn hear(cell: u32, burst: u32, count: u32, row: &[f32]) -> MqHear {
    whole::<1, 16>(cell, burst, count, row)
}

/// Four users at once, in four lanes each: a pair is fetched once for the four.
#[inline(never)]
pub fn hear_by_fours(cell: u32, burst: u32, count: u32, row: &[f32]) -> MqHear {
    whole::<4, 4>(cell, burst, count, row)
}
