//! A row's hexadecimal digits, each read once for its four elements: a piece of a digit before, whole digits in
//! stretches up to the row's end, a piece of a digit behind.

/// The powers of j of each digit's four elements. They are the same wherever the digit stands, since four divides the
/// period.
pub static POWERS: [[u8; 4]; 16] = powers();

const fn powers() -> [[u8; 4]; 16] {
    let mut powers = [[0; 4]; 16];
    let mut d = 0;
    while d < 16 {
        let mut e = 1;
        while e <= 4 {
            let bit = (d >> (4 - e)) & 1;
            powers[d][e - 1] = ((e + 2 * (1 - bit)) % 4) as u8;
            e += 1;
        }
        d += 1;
    }
    powers
}

/// Row n of a table of rows of w bytes.
pub fn row_of(t: &[u8], w: u32, n: u32) -> &[u8] {
    &t[(n * w) as usize..((n + 1) * w) as usize]
}

/// Digit g of a row, from 0.
#[inline(always)]
fn digit(row: &[u8], g: usize) -> usize {
    let b = row[g / 2];
    (if g % 2 == 0 { b >> 4 } else { b & 15 }) as usize
}

/// Fills `out` with the elements of a row behind the first `by`, `wide` values each; the row begins again behind its end.
/// `write` gets a digit, how many of its elements come before the place, and the place, which may be shorter than the
/// rest of the digit. Inlined, so that the length of a whole digit's place is known when this is compiled.
#[inline(always)]
pub fn fill<T>(
    row: &[u8],
    by: u32,
    wide: usize,
    out: &mut [T],
    write: impl Fn(usize, usize, &mut [T]),
) {
    let digits = 2 * row.len();
    let skipped = by as usize % 4;
    let mut g = by as usize / 4 % digits;
    let piece = ((4 - skipped) % 4 * wide).min(out.len());
    let (before, mut rest) = out.split_at_mut(piece);
    if skipped > 0 {
        write(digit(row, g), skipped, before);
        g = (g + 1) % digits;
    }
    while rest.len() >= 4 * wide {
        let stretch = (digits - g).min(rest.len() / (4 * wide));
        let (now, later) = rest.split_at_mut(4 * wide * stretch);
        for (place, q) in now.chunks_exact_mut(4 * wide).zip(g..) {
            write(digit(row, q), 0, place);
        }
        g = (g + stretch) % digits;
        rest = later;
    }
    write(digit(row, g), 0, rest);
}
